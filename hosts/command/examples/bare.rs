//! The bare loop that hosts/measure compares `mpeg1 frames` with: the archive's calls and the hash of each picture, and nothing else.
//! It prints the hashes only. Pictures have to be whole macroblocks, so that nothing of a plane is cut.
use md5::{Digest, Md5};
use mpeg1 as _;

#[path = "../../rust/src/calls.rs"]
mod calls;

use calls::*;

fn main() {
    let path = std::env::args_os().nth(1).expect("usage: bare FILE");
    let s = std::fs::read(path).expect("the stream");
    let (mut shown, mut time, mut hashes) = ([0], 0.0, String::new());
    unsafe {
        let mut m = vec![0; mpeg1_store_bytes(4095, 4095)];
        let (mut n, mut i, mut q, mut c) = ([0; 21], [0; 73], [0; 128], [0.0; 4]);
        let (mp, mn, np, ip, qp, cp) = (m.as_mut_ptr(), m.len(), n.as_mut_ptr(), i.as_mut_ptr(), q.as_mut_ptr(), c.as_mut_ptr());
        assert_eq!(mpeg1_open(s.as_ptr(), s.len(), mp, mn, np, 21, ip, 73, qp, 128, cp, 4), 0);
        while mpeg1_decode(s.as_ptr(), s.len(), mp, mn, np, 21, ip, 73, qp, 128, cp, 4, shown.as_mut_ptr(), 1, &mut time) == 0 {
            let mut hash = Md5::new();
            for plane in [0, 2, 1] {
                let (start, bytes) = (mpeg1_plane_start(np, 21, shown[0], plane), mpeg1_plane_bytes(np, 21, plane));
                hash.update(&m[start..start + bytes]);
            }
            hashes += &format!("{:x}\n", hash.finalize());
        }
    }
    print!("{hashes}");
}
