@group(0) @binding(0) var<uniform> u: vec4<f32>;
@compute @workgroup_size(64) fn main(@builtin(local_invocation_index) li: u32, @builtin(workgroup_id) wid: vec3<u32>) {
  if (f32(li) > u.x) {
    return;
  }
  workgroupBarrier();
}
