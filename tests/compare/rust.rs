// The Rust twice: as it stands in docs/src, and a copy to which `asking` has added the questions 8 and 9.
pub mod unchanged {
    #[allow(dead_code)]
    mod buffer {
        include!("../../docs/src/crates/native32emu-core/src/mpeg/buffer.rs");
        include!("place.rs");
    }

    #[allow(dead_code)]
    pub mod video {
        include!("../../docs/src/crates/native32emu-core/src/mpeg/video.rs");
        include!("state.rs");
    }
}

pub mod asking {
    #[allow(dead_code)]
    mod buffer {
        include!("../../docs/src/crates/native32emu-core/src/mpeg/buffer.rs");
        include!("place.rs");
    }

    #[allow(dead_code)]
    pub mod video {
        include!("target/asking.rs");
        include!("state.rs");
    }
}

// The number by which the copy leaves a call.
pub struct Stopped(pub u32);

// Leaves the call where a question is answered "no".
pub fn ask(number: u32, yes: bool) {
    if !yes {
        std::panic::resume_unwind(Box::new(Stopped(number)));
    }
}
