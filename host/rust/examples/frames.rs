//! Frames from anything that can be read, in small pieces: `cargo run --example frames`, from this folder. A frame's length comes first, four bytes, the
//! highest first; then its bytes, one struct.
use std::io::{self, Read};
use tagrumzil::{FrameSkip, Progress, TConfiguration};

/// The next frame, however its bytes come, if there is one. What it answers is known before its last byte has come; the rest of the frame is read and dropped.
fn next_frame(source: &mut impl Read, limits: TConfiguration) -> io::Result<Option<Progress>> {
    let mut length = [0; 4];
    if source.read(&mut length[..1])? == 0 {
        return Ok(None);
    }
    source.read_exact(&mut length[1..])?;
    let length = u32::from_be_bytes(length) as usize;
    let mut skip = FrameSkip::announce(length, limits);
    let mut answer = skip.take(&[]);
    let (mut left, mut piece) = (length, [0; 7]);
    while left > 0 {
        let room = left.min(piece.len());
        let n = source.read(&mut piece[..room])?;
        if n == 0 {
            return Ok(Some(skip.close()));
        }
        answer = skip.take(&piece[..n]);
        left -= n;
    }
    Ok(Some(answer))
}

fn main() -> io::Result<()> {
    let limits = TConfiguration { depth: 64, string: 65_536, container: 65_536, message: i32::MAX as u32 };
    let mut sent = Vec::new();
    for frame in [
        &[0x15, 0x80, 0x01, 0x18, 0x03, b'a', b'b', b'c', 0x00][..], // a whole one
        &[0x15, 0x80, 0x01, 0x00, 0xFF, 0xFF],                       // with two bytes behind its struct
        &[0x18, 0x09, b'a', b'b', b'c', 0x00],                       // a string that is longer than the frame
        &[0x15, 0x80],                                               // one that ends early
    ] {
        sent.extend((frame.len() as u32).to_be_bytes());
        sent.extend(frame);
    }
    sent.extend([0, 0, 0, 9, 0x15]); // one that the source ends in
    let mut source = &sent[..];
    while let Some(answer) = next_frame(&mut source, limits)? {
        match answer {
            Progress::Done(used) => println!("done {used}"),
            Progress::Refused(why) => println!("{why}"),
            Progress::More => println!("more"),
        }
    }
    Ok(())
}
