//! Frames that are sent over and over, and what they look like where they come out.

use std::io;

use codec::Message;

/// What is sent with one call, unless a frame is longer.
const BATCH: usize = 65_536;
/// Bytes of each piece received that are compared. The first and the last frame are compared whole.
const SAMPLE: usize = 64;

/// A message with these data, as the receiving end gets it.
pub type Form = for<'a> fn(&'a [u8]) -> Message<'a>;

pub struct Batch {
    pub sent: Vec<u8>,
    pub delivered: Vec<u8>,
    /// Bytes of a frame.
    frame: usize,
}

impl Batch {
    /// As many frames with so many data bytes as go into one call.
    pub fn new(data_length: usize, form: Form) -> io::Result<Self> {
        let frame = frame(&Message::DataSend { data: &vec![0; data_length] })?.len();
        Self::of(BATCH / frame, data_length, form)
    }

    pub fn single(data_length: usize, form: Form) -> io::Result<Self> {
        Self::of(1, data_length, form)
    }

    fn of(frames: usize, data_length: usize, form: Form) -> io::Result<Self> {
        let data = varied(frames.max(1) * data_length);
        let (mut sent, mut delivered) = (Vec::new(), Vec::new());
        for data in data.chunks(data_length) {
            sent.extend(frame(&Message::DataSend { data })?);
            delivered.extend(frame(&form(data))?);
        }
        let frame = sent.len() / frames.max(1);
        Ok(Self { sent, delivered, frame })
    }

    pub fn length(&self) -> u64 {
        self.sent.len() as u64
    }

    /// Whether a piece is what comes out at this place of the repeated batch, as far as it is compared.
    pub fn agrees(&self, piece: &[u8], place: u64, total: u64) -> bool {
        let (frame, end) = (self.frame as u64, place + piece.len() as u64);
        let at_edge = place < frame || end + frame > total;
        let compared = if at_edge { piece } else { &piece[..piece.len().min(SAMPLE)] };
        let start = (place % self.length()) as usize;
        let expected = self.delivered[start..].iter().chain(self.delivered.iter().cycle());
        compared.iter().eq(expected.take(compared.len()))
    }
}

/// The message on the wire.
pub fn frame(message: &Message) -> io::Result<Vec<u8>> {
    let mut bytes = Vec::new();
    let appended = codec::encode(message).and_then(|message| frames::append(&message, &mut bytes));
    appended.map(|()| bytes).ok_or(io::ErrorKind::InvalidInput.into())
}

/// Bytes that differ from frame to frame, so that one lost or moved shows.
fn varied(length: usize) -> Vec<u8> {
    (0..length as u32).map(|place| (place.wrapping_mul(2_654_435_761) >> 24) as u8).collect()
}

#[cfg(test)]
mod tests {
    use super::*;

    /// More than one batch, as it comes out of a proxy, and how many bytes that are.
    fn repeated(batch: &Batch) -> (Vec<u8>, u64) {
        (batch.delivered.repeat(2), batch.length() * 2)
    }

    #[test]
    fn what_comes_out_agrees_wherever_it_is_cut() {
        let batch = Batch::new(64, |data| Message::DataSend { data }).expect("a batch");
        let (bytes, total) = repeated(&batch);
        for cut in [1, 68, 1_000, 65_484, 65_485, 130_000] {
            let (first, second) = bytes.split_at(cut);
            assert!(batch.agrees(first, 0, total) && batch.agrees(second, cut as u64, total), "cut at {cut}");
        }
    }

    #[test]
    fn a_wrong_byte_and_a_lost_frame_are_noticed() {
        let batch = Batch::new(64, |data| Message::DataReceive { data }).expect("a batch");
        let (mut bytes, total) = repeated(&batch);
        assert!(!batch.agrees(&batch.sent, 0, total), "the type as it was sent");
        assert!(!batch.agrees(&bytes[136..], 68, total), "a frame too few");
        *bytes.last_mut().expect("bytes") ^= 1;
        assert!(!batch.agrees(&bytes[68..], 68, total), "the last byte");
    }
}
