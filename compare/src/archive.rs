//! The archive's calls by the C header, with guards around all that is lent.

use crate::call::{layout_of, Call, Kind, Outcome};
use crate::room::Room;

extern "C" {
    fn bg_collect(
        collector: *mut u32,
        held: *mut u8,
        lump: *const u8,
        lump_len: usize,
        at: usize,
        line: *mut u8,
        got: *mut u32,
    ) -> u32;
    fn bg_take_line(
        reader: *mut u32,
        line: *const u8,
        line_len: usize,
        packet: *mut u8,
        packet_len: usize,
        body: *mut u32,
        place: *mut u32,
    ) -> u32;
    fn bg_send_frame(
        body: *const u8,
        body_len: usize,
        k: usize,
        out: *mut u8,
        out_len: usize,
        sent: *mut u32,
    ) -> u32;
    fn bg_configure(layout: *const usize, memory_len: usize, session: *mut u32, tag: *mut u8) -> u32;
    fn bg_handle(
        layout: *const usize,
        memory: *mut u8,
        memory_len: usize,
        session: *mut u32,
        tag: *mut u8,
        packet: *const u8,
        packet_len: usize,
        reply: *mut u8,
        reply_len: usize,
        answer: *mut u32,
    ) -> u32;
    fn bg_write_echo(
        sequence: u8,
        text: *const u8,
        text_len: usize,
        out: *mut u8,
        out_len: usize,
        packet_len: *mut u32,
    ) -> u32;
    fn bg_write_reset(sequence: u8, out: *mut u8, out_len: usize, packet_len: *mut u32) -> u32;
    fn bg_write_erase(sequence: u8, out: *mut u8, out_len: usize, packet_len: *mut u32) -> u32;
    fn bg_write_upload(
        sequence: u8,
        data: *const u8,
        data_len: usize,
        off: u64,
        length: u64,
        tag: *const u8,
        tag_len: usize,
        out: *mut u8,
        out_len: usize,
        packet_len: *mut u32,
    ) -> u32;
    fn bg_read_reply(packet: *const u8, packet_len: usize, reply: *mut u32) -> u32;
    fn bg_next_sequence(sequence: u8) -> u8;
    fn bg_most_data(out_len: usize, off: u64, length: u64, tag_len: usize) -> u32;
    fn bg_first_record(file: *const u8, file_len: usize, first: *mut usize) -> u32;
    fn bg_next_record(file: *const u8, file_len: usize, at: usize, record: *mut usize) -> u32;
    fn bg_replay(
        file: *const u8,
        file_len: usize,
        memory: *mut u8,
        session: *mut u32,
        tag: *mut u8,
        reader: *mut u32,
        packet: *mut u8,
        reply: *mut u8,
        answers: *mut u32,
        answers_len: usize,
        count: *mut usize,
    ) -> u32;
    fn bg_write_transcript(
        answers: *const u32,
        answers_len: usize,
        count: usize,
        session: *const u32,
        out: *mut u8,
        out_len: usize,
        text_len: *mut usize,
    ) -> u32;
}

/// How many guard elements stand on each side of what is lent.
const GUARD: usize = 48;

/// An element that can be lent.
pub trait Element: Copy + PartialEq + 'static {
    /// What stands in the guards, before what is lent and behind it.
    const GUARDS: &'static [Self];
}

/// Makes a type of numbers one of elements.
macro_rules! element {
    ($number:ty) => {
        impl Element for $number {
            const GUARDS: &'static [$number] = &{
                let mut guards = [0; 2 * GUARD];
                let mut place = 0;
                while place < 2 * GUARD {
                    guards[place] = (place as u64).wrapping_mul(0x9E37_79B9_7F4A_7C15) as $number ^ 0xA5;
                    place += 1;
                }
                guards
            };
        }
    };
}

element!(u8);
element!(u32);
element!(usize);

/// Where what is lent stands.
#[derive(Clone, Copy, Debug)]
pub enum Place {
    /// Between guard elements, which are looked at after the call.
    Guarded,
    /// In an allocation of its own, whose bounds a memory checker sees.
    Alone,
    /// Right before a page without access.
    BeforePage,
    /// Right after a page without access.
    AfterPage,
}

/// What holds the elements lent.
enum Holder<T> {
    /// These, with so many guard elements on each side.
    Elements(Vec<T>, usize),
    /// This room, from here on.
    Room(Room, *mut T),
}

/// Elements lent to the archive.
pub struct Lent<T> {
    holder: Holder<T>,
    length: usize,
    null: bool,
}

impl<T: Element> Lent<T> {
    /// Copies what is to be lent to its place.
    pub fn new(content: &[T], place: Place, null: bool) -> Lent<T> {
        let holder = match place {
            Place::Guarded => Lent::between(content, GUARD),
            Place::Alone => Lent::between(content, 0),
            Place::BeforePage | Place::AfterPage => Lent::at_page(content, place),
        };
        Lent { holder, length: content.len(), null: null && content.is_empty() }
    }

    /// Copies what is to be lent between so many guard elements.
    fn between(content: &[T], guard: usize) -> Holder<T> {
        let mut all = Vec::with_capacity(content.len() + 2 * guard);
        all.extend_from_slice(&T::GUARDS[..guard]);
        all.extend_from_slice(content);
        all.extend_from_slice(&T::GUARDS[guard..2 * guard]);
        Holder::Elements(all, guard)
    }

    /// Copies what is to be lent to a room, to its end or its start.
    fn at_page(content: &[T], place: Place) -> Holder<T> {
        let size = std::mem::size_of_val(content);
        let room = Room::new(size);
        let first = match place {
            Place::BeforePage => room.end().wrapping_sub(size) as *mut T,
            _ => room.start() as *mut T,
        };
        // SAFETY: the room has the size; its start and its end are a multiple of every alignment.
        unsafe { std::ptr::copy_nonoverlapping(content.as_ptr(), first, content.len()) };
        Holder::Room(room, first)
    }

    /// The pointer to what is lent; null where that was asked for and it has no elements.
    pub fn pointer(&mut self) -> *mut T {
        match &mut self.holder {
            _ if self.null => std::ptr::null_mut(),
            Holder::Elements(all, guard) => all[*guard..].as_mut_ptr(),
            Holder::Room(_, first) => *first,
        }
    }

    /// Says whether the guards are as they were; pages without access guard themselves.
    fn kept(&self) -> bool {
        match &self.holder {
            Holder::Elements(all, guard) => {
                let (before, after) = T::GUARDS[..2 * guard].split_at(*guard);
                all[..*guard] == *before && all[guard + self.length..] == *after
            }
            Holder::Room(..) => true,
        }
    }

    /// What was lent, as it is now.
    fn content(self) -> Vec<T> {
        match self.holder {
            Holder::Elements(mut all, guard) => {
                all.truncate(guard + self.length);
                all.drain(..guard);
                all
            }
            // SAFETY: the elements stand in the room, which is still there.
            Holder::Room(_room, first) => unsafe { std::slice::from_raw_parts(first, self.length).to_vec() },
        }
    }
}

/// Makes a call of the archive, with what it is lent at a place.
pub fn call(call: &Call, place: Place) -> Outcome {
    let shape = call.kind.shape();
    // The out-parameters' first values are free, so the last bit of the last one decides about null.
    let last = call.sizes.last().copied().or_else(|| call.words.last().map(|word| *word as usize));
    let null = last.map_or(false, |last| last & 1 == 1);
    let arrays = shape.arrays(call.words.len());
    let mut words: Vec<Lent<u32>> = arrays
        .iter()
        .map(|(_, range, with_length)| Lent::new(&call.words[range.clone()], place, null && *with_length))
        .collect();
    let mut sizes = shape.sizes.map(|_| Lent::new(&call.sizes, place, false));
    let sizes_pointer = sizes.as_mut().map_or(std::ptr::null_mut(), Lent::pointer);
    let mut buffers: Vec<Lent<u8>> =
        call.buffers.iter().map(|buffer| Lent::new(buffer, place, null)).collect();
    let numbers = &call.numbers;
    let layout = call.kind.has_layout().then(|| layout_of(call).map(|number| number as usize));
    let mut lent_layout = layout.map(|layout| Lent::new(&layout, place, false));
    let layout_pointer = lent_layout.as_mut().map_or(std::ptr::null_mut(), Lent::pointer);
    // SAFETY: every pointer is to as many elements as the header asks for, and no two overlap.
    let returned = unsafe {
        match (call.kind, &mut words[..], &mut buffers[..]) {
            (Kind::Collect, [collector, got], [held, lump, line]) => bg_collect(
                collector.pointer(),
                held.pointer(),
                lump.pointer(),
                lump.length,
                numbers[0] as usize,
                line.pointer(),
                got.pointer(),
            ),
            (Kind::TakeLine, [reader, body, place], [line, packet]) => bg_take_line(
                reader.pointer(),
                line.pointer(),
                line.length,
                packet.pointer(),
                packet.length,
                body.pointer(),
                place.pointer(),
            ),
            (Kind::SendFrame, [sent], [body, out]) => bg_send_frame(
                body.pointer(),
                body.length,
                numbers[0] as usize,
                out.pointer(),
                out.length,
                sent.pointer(),
            ),
            (Kind::Configure, [session], [tag]) => {
                bg_configure(layout_pointer, numbers[4] as usize, session.pointer(), tag.pointer())
            }
            (Kind::Handle, [session, answer], [memory, tag, packet, reply]) => bg_handle(
                layout_pointer,
                memory.pointer(),
                memory.length,
                session.pointer(),
                tag.pointer(),
                packet.pointer(),
                packet.length,
                reply.pointer(),
                reply.length,
                answer.pointer(),
            ),
            (Kind::WriteEcho, [length], [text, out]) => bg_write_echo(
                numbers[0] as u8,
                text.pointer(),
                text.length,
                out.pointer(),
                out.length,
                length.pointer(),
            ),
            (Kind::WriteReset, [length], [out]) => {
                bg_write_reset(numbers[0] as u8, out.pointer(), out.length, length.pointer())
            }
            (Kind::WriteErase, [length], [out]) => {
                bg_write_erase(numbers[0] as u8, out.pointer(), out.length, length.pointer())
            }
            (Kind::WriteUpload, [length], [data, tag, out]) => bg_write_upload(
                numbers[0] as u8,
                data.pointer(),
                data.length,
                numbers[1],
                numbers[2],
                tag.pointer(),
                tag.length,
                out.pointer(),
                out.length,
                length.pointer(),
            ),
            (Kind::ReadReply, [reply], [packet]) => {
                bg_read_reply(packet.pointer(), packet.length, reply.pointer())
            }
            (Kind::NextSequence, ..) => bg_next_sequence(numbers[0] as u8) as u32,
            (Kind::MostData, ..) => {
                bg_most_data(numbers[0] as usize, numbers[1], numbers[2], numbers[3] as usize)
            }
            (Kind::FirstRecord, [], [file]) => bg_first_record(file.pointer(), file.length, sizes_pointer),
            (Kind::NextRecord, [], [file]) => {
                bg_next_record(file.pointer(), file.length, numbers[0] as usize, sizes_pointer)
            }
            (Kind::Replay, [session, reader, answers], [file, memory, tag, packet, reply]) => bg_replay(
                file.pointer(),
                file.length,
                memory.pointer(),
                session.pointer(),
                tag.pointer(),
                reader.pointer(),
                packet.pointer(),
                reply.pointer(),
                answers.pointer(),
                answers.length,
                sizes_pointer,
            ),
            (Kind::WriteTranscript, [session, answers], [out]) => bg_write_transcript(
                answers.pointer(),
                answers.length,
                numbers[0] as usize,
                session.pointer(),
                out.pointer(),
                out.length,
                sizes_pointer,
            ),
            _ => unreachable!("a call has the parameters of its shape"),
        }
    };
    let mut fault = None;
    for (lent, (name, ..)) in words.iter().zip(&arrays) {
        if !lent.kept() {
            fault = Some(format!("wrote outside {name}"));
        }
    }
    if let (Some(name), Some(false)) = (shape.sizes, sizes.as_ref().map(Lent::kept)) {
        fault = Some(format!("wrote outside {name}"));
    }
    for (lent, name) in buffers.iter().zip(shape.buffers) {
        if !lent.kept() {
            fault = Some(format!("wrote outside {name}"));
        }
    }
    if lent_layout.as_ref().map_or(false, |lent| !lent.kept()) {
        fault = Some("wrote outside layout".to_string());
    }
    if lent_layout.map(Lent::content) != layout.map(|layout| layout.to_vec()) {
        fault = Some("wrote to layout".to_string());
    }
    Outcome {
        returned,
        words: words.into_iter().flat_map(Lent::content).collect(),
        sizes: sizes.map_or(vec![], Lent::content),
        buffers: buffers.into_iter().map(Lent::content).collect(),
        fault,
    }
}
