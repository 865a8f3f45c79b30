// derivative.wgsl with diagnostic(off, derivative_uniformity);
