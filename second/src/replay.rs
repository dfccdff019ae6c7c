//! The replay of a recording: its lines to the controller are fed to a reader and a controller that begin anew.

use crate::reader::{self, Taken};
use crate::recording::{self, Way};
use crate::refusal::Refusal;
use crate::{controller, host, slot};

/// The controller's memory: slot 0 is its first half, the upload slot its second.
pub const MEMORY: usize = 8_192;
/// The packet buffer, and the reply buffer.
pub const BUFFER: usize = 1_024;

/// What all of a replay is played on.
pub struct Bench<'a> {
    pub memory: &'a mut [u8; MEMORY],
    pub session: &'a mut [u32; 4],
    pub tag: &'a mut [u8; 32],
    pub reader: &'a mut [u32; 4],
    pub packet: &'a mut [u8; BUFFER],
    pub reply: &'a mut [u8; BUFFER],
}

impl Bench<'_> {
    /// Makes all new but the two buffers.
    fn begin(&mut self) {
        self.memory.fill(255);
        slot::store(None, self.session, self.tag);
        *self.reader = [0; 4];
    }

    /// Feeds a line; gives the rc of the reply, if the line brought one, or the refusal of the line or of its packet.
    fn feed(&mut self, line: &[u8]) -> Result<Option<u32>, Refusal> {
        let length = match reader::take_line(self.reader, line, self.packet)? {
            Taken::More => return Ok(None),
            Taken::Complete(length) => length,
        };
        let layout = [0, MEMORY / 2, MEMORY / 2, MEMORY / 2];
        let (length, _) = controller::handle(
            &layout,
            self.memory,
            self.session,
            self.tag,
            &self.packet[..length],
            self.reply,
        )?;
        // A list of images is no reply that the host reads, and has no rc.
        Ok(Some(host::read_reply(&self.reply[..length]).map_or(0, |reply| reply.rc)))
    }
}

/// The numbers of an answer.
pub const ANSWER: usize = 4;

/// An answer as numbers: the refusal or 0, 1 where there is a reply, its rc, and the place of a bad text.
fn numbers(answer: Result<Option<u32>, Refusal>) -> [u32; ANSWER] {
    match answer {
        Ok(Some(rc)) => [0, 1, rc, 0],
        Ok(None) => [0; ANSWER],
        Err(refusal) => [refusal.number(), 0, 0, refusal.place().unwrap_or(0)],
    }
}

/// Replays a recording; gives the number of its lines to the controller, whose answers stand one behind the other. Refuses
/// 12 where the file is no recording, or where there is no room for an answer to each record.
pub fn replay(file: &[u8], bench: &mut Bench, answers: &mut [u32]) -> Result<usize, Refusal> {
    let (_, records) = recording::read(file)?;
    if answers.len() < ANSWER * records.len() {
        return Err(Refusal::CannotSend);
    }
    bench.begin();
    let mut count = 0;
    for record in records.into_iter().filter(|record| record.way == Way::ToController) {
        let answer = bench.feed(&file[record.line]);
        answers[ANSWER * count..][..ANSWER].copy_from_slice(&numbers(answer));
        count += 1;
    }
    Ok(count)
}

/// The transcript of so many answers, without their places, and of the session at the end.
fn transcript(answers: &[u32], session: &[u32; 4]) -> String {
    let mut text = String::new();
    for (number, answer) in answers.chunks_exact(ANSWER).enumerate() {
        let rc = if answer[1] != 0 { answer[2].to_string() } else { "-".to_string() };
        text += &format!("{number} {} {rc}\n", answer[0]);
    }
    let end = if session[0] != 0 { session[2].to_string() } else { "none".to_string() };
    text + &format!("end {end}\n")
}

/// Writes the transcript of the first answers to the start of the output, and gives its length. Refuses 12 where there are
/// fewer answers, or the output is shorter.
pub fn write_transcript(
    answers: &[u32],
    count: usize,
    session: &[u32; 4],
    out: &mut [u8],
) -> Result<usize, Refusal> {
    let answers =
        count.checked_mul(ANSWER).and_then(|numbers| answers.get(..numbers)).ok_or(Refusal::CannotSend)?;
    let text = transcript(answers, session);
    out.get_mut(..text.len()).ok_or(Refusal::CannotSend)?.copy_from_slice(text.as_bytes());
    Ok(text.len())
}
