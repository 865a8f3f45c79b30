@group(0) @binding(3) var t: texture_2d<f32>;
@group(0) @binding(4) var s: sampler;
@fragment fn main(@location(0) uv: vec2<f32>, @location(1) @interpolate(flat) k: i32) -> @location(0) vec4<f32> {
  var d: f32 = 0.0;
  for (var k1: i32 = 0i; (k1 < 64i); k1 += 1i) {
    let h = textureSample(t, s, vec2<f32>(uv.x, uv.x)).x;
    d += h;
    if (d > 1.0) {
      break;
    }
  }
  return vec4<f32>(d);
}
