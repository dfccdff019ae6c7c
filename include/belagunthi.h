/*
 * Belagunthi: both ends of a controller's update port, for C and C++.
 *
 * Each call is proved to keep the promise in the comment above it, for every value of its arguments: it ends, it touches nothing but what
 * it is lent, and it returns 0 or the number of one refusal (bg_next_sequence and bg_most_data refuse nothing, and return their number). After a
 * refusal every lent byte and number is as it was, but for three: at 4, 6, 7, 8 and 9 the reader's record is then idle, at 4 the place of the bad text is
 * given, and at the collector's 2 its record is then empty and the place behind the line is given. No call keeps anything of its own: there is nothing to
 * set up, and calls on different arrays may run at the same time.
 *
 * What the caller owes, and no call can check:
 *  - A pointer with a length is that many bytes, his to lend for the call; it may be null where the length is 0. Every other pointer (an array, an
 *    out number) is not null, and an array has as many elements as it says.
 *  - Two lent buffers never overlap, unless both are only read.
 *  - The controller's memory is plain memory: a byte that is written is read back, and nothing else writes there during a call. A flash memory that
 *    needs commands is lent as a copy in plain memory.
 *
 * What a controller owes for the promise over a row of calls (see bg_handle): after one bg_configure that returned 0, the layout stays as it was
 * configured, and memory, session record and tag come back to each call as the last one left them. A reader owes the same of its record and its
 * packet buffer from line to line (see bg_take_line), and of the collector's record and its bytes from step to step (see bg_collect).
 *
 * To link: the archive libport.a is code for x86-64 Linux, today for no other processor, and needs memcpy, memmove and memset of the C library, and
 * nothing else. No call takes more than BG_STACK bytes of stack, but bg_replay, which takes at most BG_BENCH_STACK; measured on x86-64,
 * without what these three take:
 *   bg_collect           536
 *   bg_take_line        1032
 *   bg_send_frame        792
 *   bg_configure           0
 *   bg_handle            648
 *   bg_write_echo         56
 *   bg_write_reset         0
 *   bg_write_erase         0
 *   bg_write_upload      136
 *   bg_most_data           8
 *   bg_read_reply        392
 *   bg_next_sequence       8
 *   bg_first_record       48
 *   bg_next_record         0
 *   bg_replay           1320
 *   bg_write_transcript  136
 */
#ifndef BELAGUNTHI_H
#define BELAGUNTHI_H

#include <stddef.h>
#include <stdint.h>

#ifdef __cplusplus
extern "C" {
#endif

/* The version: major * 10000 + minor * 100 + patch. The major number changes with a promise that a caller may rely on, the minor with a new name. */
#define BG_VERSION 40000
#define BG_VERSION_TEXT "4.0.0"

/* The most stack that a call takes, in bytes; and bg_replay, which no controller and no host needs. */
#define BG_STACK 1152
#define BG_BENCH_STACK 1536

/* What a call returns: done, or the refusal of this number. */
enum bg_result {
  BG_DONE = 0,
  BG_IMPOSSIBLE = 1,       /* the layout, the session record or the collector's record is impossible */
  BG_LINE_TOO_LONG = 2,    /* the line is over 127 bytes */
  BG_NO_FRAME = 3,         /* the line is under 3 bytes, has no marker, or no 0A at its end */
  BG_BAD_TEXT = 4,         /* the line's text is not well-formed Base64: bg_take_line says at which place */
  BG_NO_PACKET_OPEN = 5,   /* a partial frame, and no packet is open */
  BG_BAD_TOTAL = 6,        /* an initial frame with under 2 raw bytes, or a total under 10 */
  BG_BODY_TOO_LONG = 7,    /* the body is longer than the packet buffer */
  BG_TOO_MANY_BYTES = 8,   /* more bytes came than total says */
  BG_CRC_DIFFERS = 9,      /* the CRC differs */
  BG_WRONG_KIND = 10,      /* not a packet of the kind asked for: a request, or a well-formed reply */
  BG_REPLY_TOO_SHORT = 11, /* the reply buffer is under 32 bytes */
  BG_UNSENDABLE = 12,      /* what the sender or a writer cannot send; a lump over 256 bytes; no recording */
  BG_NO_SUCH_FRAME = 13    /* the frame number is not below the frame count */
};

/*
 * The collector's record: { count, skipping }, and beside it its 126 bytes. All 0 is empty; begin with that. The first count bytes are those of a line that
 * has begun; what stands behind them is not looked at. Where skipping is not 0 that line is too long, and its bytes are thrown away up to and including
 * its 0A. A count over 126, or an 0A among the first count bytes, makes the record impossible.
 */
#define BG_COLLECTOR 2
enum bg_collector_number { BG_COLLECTOR_COUNT, BG_COLLECTOR_SKIPPING };
#define BG_HELD 126

/*
 * The reader's record: { open, total, come, first }. All 0 is idle; begin with that. Where open is 0 the record is idle, and its other numbers are not
 * looked at. Where open is not 0 a packet is open: total is 10 to 65,535, come counts the body and CRC bytes that have come and is below total, and
 * first is the first CRC byte where come is total less 1, and elsewhere any number up to 255; other numbers make it impossible. A call that stores an
 * open record stores open as 1, and first as 0 unless come is total less 1.
 */
#define BG_READER 4

/*
 * The layout: { slot 0's start, slot 0's size, the upload slot's start, its size }, two regions of the controller's memory in bytes. Slot 0, that of the
 * running image, is only ever read; the upload slot is slot 1. The upload slot has 1 to 1,048,576 bytes and slot 0 any number, 0 too; both end inside the
 * memory, and no byte is in both, so that a slot 0 of no bytes may start at any place up to the memory's end; else the layout is impossible.
 */
#define BG_LAYOUT 4
enum bg_layout_number { BG_LAYOUT_SLOT0_START, BG_LAYOUT_SLOT0_SIZE, BG_LAYOUT_SLOT_START, BG_LAYOUT_SLOT_SIZE };

/*
 * The session record: { open, length, place, tagged }, and beside it its tag of 32 bytes. All 0 is closed; bg_configure gives that. Where open
 * is 0 nothing else of it is looked at; where tagged is 0 the tag is not. An open one has a length of 1 to the upload slot's size and a place of 1 to
 * the length; else it is impossible.
 */
#define BG_SESSION 4
enum bg_session_number { BG_SESSION_OPEN, BG_SESSION_LENGTH, BG_SESSION_PLACE, BG_SESSION_TAGGED };
#define BG_TAG 32

/* The numbers of a reply: see bg_read_reply. */
#define BG_REPLY 12
enum bg_reply_number {
  BG_REPLY_OP,
  BG_REPLY_FLAGS,
  BG_REPLY_LENGTH,
  BG_REPLY_GROUP,
  BG_REPLY_SEQUENCE,
  BG_REPLY_COMMAND,
  BG_REPLY_RC,
  BG_REPLY_HAS_OFF,
  BG_REPLY_OFF,
  BG_REPLY_HAS_TEXT,
  BG_REPLY_TEXT_START,
  BG_REPLY_TEXT_LENGTH
};

/*
 * A recording of the line: a preface of any bytes, then records, then a trailer of 8 bytes: the distance from the trailer's first byte back to the first
 * record, then the number of records, 4 bytes each, the high one first. A record is one byte, 3E (hexadecimal) for a line to the controller or 3C for one
 * from it, the line's length in two bytes, the high one first, and the line: any bytes, none too, with an 0A or without. A file is a recording where that
 * many records begin there, and the last ends where the trailer begins; nothing else points to a record, and the preface may look like anything.
 */
#define BG_FIRST 2
enum bg_first_number { BG_FIRST_PLACE, BG_FIRST_NUMBER };
#define BG_RECORD 3
enum bg_record_number { BG_RECORD_KIND, BG_RECORD_START, BG_RECORD_LENGTH };
enum bg_record_kind { BG_RECORDS_OVER = 0, BG_FROM_CONTROLLER = 0x3C, BG_TO_CONTROLLER = 0x3E };

/* The bench that a recording is replayed on: its memory, of which the first half is slot 0 and the second the upload slot; its packet and reply buffers. */
#define BG_BENCH_MEMORY 8192
#define BG_BENCH_BUFFER 1024

/*
 * An answer of a replay in four numbers: { the refusal of the line or of its packet or 0, 1 where the line completed a packet that was replied to, else 0,
 * the reply's rc or 0, the place that bg_take_line gives with refusal 4, else 0 }. The rc is that of bg_read_reply, so 0 where the reply has none; and 0 for
 * a list of images.
 */
#define BG_ANSWER 4
enum bg_answer_number { BG_ANSWER_REFUSAL, BG_ANSWER_REPLIED, BG_ANSWER_RC, BG_ANSWER_PLACE };

/* The longest lump; the longest line, which is also the shortest output that bg_send_frame takes; the longest packet; the shortest reply buffer. */
#define BG_LUMP 256
#define BG_LINE 127
#define BG_PACKET 65533
#define BG_REPLY_ROOM 32

/*
 * One step through a lump of bytes, as a driver delivers them, from place `at` on (0 at first): to the end of the next line, or to the lump's end.
 * Returns 0 with got = { n, place }, n at least 1: the step completed a line; its n bytes, the 0A the last of them, stand at the line array's start, and the
 * array's other bytes stay; the record is empty, all 0 with its bytes. Go on in the same lump from that place, which is behind the 0A.
 * Returns 0 with got = { 0, place }: the lump is used up, and place is its length, also where `at` is beyond that. The bytes behind the last 0A are held:
 * they stand behind those that were held before, and the record's other bytes stay; count grows by as many. With the 127th byte of a line that is not
 * an 0A the record becomes all 0 with its bytes, but for skipping, which is 1; a record that skips stays. The line array stays.
 * Returns 2 with got = { 0, place }: a line whose first 127 bytes have no 0A has ended with the 0A before that place; the record is empty, the line array
 * stays. Go on from that place. A line that is too long is refused once, when its 0A comes.
 * Refuses 1 for an impossible record, then 12 for a lump over 256 bytes: nothing was taken, and everything stays, got too.
 * A call that returns 0 or 2 stores skipping as 0 or 1.
 * Over a row of calls, record and bytes untouched between them, each lump gone through until it is used up: one stream of bytes gives the same lines and
 * refusals in order, and the same record and bytes at its end, however it was cut into lumps of 0 to 256 bytes. What bg_take_line says to these lines,
 * with a 2 for each refusal, is from an empty record on what it says to the stream's own lines, cut behind each 0A: so the lines of a body that
 * bg_send_frame wrote are read back over lumps too.
 */
uint32_t bg_collect(uint32_t collector[BG_COLLECTOR], uint8_t held[BG_HELD], const uint8_t *lump, size_t lump_len, size_t at, uint8_t line[BG_LINE],
                    uint32_t got[2]);

/*
 * Takes one line with its 0A.
 * Returns 0 with *body 0: the line was taken, and the packet wants more. Returns 0 with *body at least 8: the line completed a packet; its
 * *body bytes stand at the packet buffer's start, and the record is idle. Body bytes go to the packet buffer in order; its other bytes stay.
 * Refuses 2 to 9, in this order. At 2, 3 and 5 the record stays; at the others it becomes idle. The packet buffer and *body stay at all of
 * them: the CRC is compared before a byte is written. A record that is open outside its bounds is refused 5 for a partial frame.
 * With refusal 4, *place is a place in the line, from 0: that of the first character of its text at which no well-formed text can begin with what stands up
 * to there, that character too; or, where the text is only too short, that of the 0A, line_len less 1. It is 2 at least. Where unused bits are not zero it is
 * the place of the first '='. With 0 and with every other refusal *place stays.
 * Over a row of calls, record and packet buffer untouched between them: the lines of a body that bg_send_frame wrote, in order and with lines that are
 * refused 2 or 3 anywhere among them, are answered "more" until the last, which gives the body back, whatever the record was at first.
 */
uint32_t bg_take_line(uint32_t reader[BG_READER], const uint8_t *line, size_t line_len, uint8_t *packet, size_t packet_len, uint32_t *body,
                      uint32_t *place);

/*
 * Writes frame number k (from 0) of a body, as a line, to the start of out; the bytes after it stay.
 * Returns 0 with sent = { the line's length, the frame count of this body }. Refuses 12 for an output under 127 bytes or a body outside 8 to
 * 65,533 bytes, then 13 for k not below the count; out and sent stay.
 * A body of 89 bytes or fewer goes in one frame, with total before it and the CRC behind. Of a longer one frame 0 carries total and the first 91 bytes,
 * or all if fewer; then, while more than 91 are left, a partial frame carries 93 of them, or all if fewer; the last frame carries the rest and the CRC.
 * The count is 1 up to 89 bytes, 2 up to 182, and one more for each 93 bytes begun above that. No cut into frames of 93 raw bytes takes fewer; but the
 * last frame carries the CRC alone where the body has 90 or 91 bytes, or a multiple of 93 more.
 */
uint32_t bg_send_frame(const uint8_t *body, size_t body_len, size_t k, uint8_t *out, size_t out_len, uint32_t sent[2]);

/*
 * Says whether a layout is possible in a memory of memory_len bytes (see BG_LAYOUT). Returns 0 and makes the session record and its tag all 0, a closed
 * session; or refuses 1, and they stay.
 * The memory is not looked at: configuring erases nothing. Configuring again begins a new history.
 */
uint32_t bg_configure(const size_t layout[BG_LAYOUT], size_t memory_len, uint32_t session[BG_SESSION], uint8_t tag[BG_TAG]);

/*
 * Takes one request packet: writes the upload slot as the upload rules say, and a reply to the start of the reply buffer, whose other bytes stay.
 * Returns 0 with answer = { the reply's length, 1 where a reset is asked, else 0 }, and the session record and tag for the next call: open and
 * tagged are then 0 or 1; a reset or an erase that is answered rc 0 makes all of it 0 (an erase sets the whole upload slot to 255; one that is answered
 * rc 3, as of another slot than 1, changes nothing); a start writes length, place and the tag, zeros where there is none; data that is added moves place
 * alone; and any other request leaves the other numbers and the tag as they were lent. A request is at most 65,533 bytes long; an echo reply longer than
 * the reply buffer becomes rc 7. An upload at offset 0 whose length is above the upload slot's size, but not above 4,294,967,295, is answered rc 2, one with
 * the open session's tag and another length rc 6; the checks stand in the paper's order. An rc other than 0 leaves memory and session. No byte of the memory
 * outside the upload slot is ever written.
 * Refuses 1, 11 and 10, in this order: everything stays.
 *
 * A state read (op 0, group 1, command 0) is answered with {"images": [..]}, without "rc": for slot 0 and then for slot 1, each where it holds a valid
 * image, a map of "slot" (0 or 1), "version" (text: major.minor.revision, in decimal) and "hash" (the 32 bytes of the image's SHA-256 entry), in this
 * order. It takes any map, or none; a malformed one is answered rc 3, and then a list longer than the reply buffer rc 7: 153 bytes are always enough. It
 * writes nothing but the reply, and changes the session no more than an echo does. The slots are read as they stand, a half-written image too; the cost
 * is that of the headers and TLV areas, not of the bodies.
 * An image is valid where MCUboot's header at its region's start has the magic 96F3B83D (hexadecimal), load address, protected size and flags 0 and a
 * header size of at least 32; and where behind header size and image size stands a TLV area that ends in the region: the magic 6907, a total of at least 4,
 * which counts these 4 bytes, and entries that fill the total exactly, of which exactly one has type 10 (hexadecimal), and that one 32 bytes. Each number
 * has its low byte first. The hash is not computed, and nothing else is looked at: neither build number nor padding, nor what stands behind the area.
 *
 * Over a row of calls after bg_configure, the kept arrays untouched between them: whenever a session is open at place n, the upload slot's first n bytes
 * are the data written since its start, joined in order, and its other bytes are 255; no byte outside the upload slot has changed, so none of slot 0; and
 * if that data was cut from one image at the offsets that the requests named, the memory is what one unbroken sending of the image's first n bytes leaves.
 */
uint32_t bg_handle(const size_t layout[BG_LAYOUT], uint8_t *memory, size_t memory_len, uint32_t session[BG_SESSION], uint8_t tag[BG_TAG],
                   const uint8_t *packet, size_t packet_len, uint8_t *reply, size_t reply_len, uint32_t answer[2]);

/*
 * The request writers. Each writes a packet to the start of out, whose other bytes stay, and returns 0 with *packet_len its length; or
 * refuses 12, and out and *packet_len stay: an output shorter than the packet, or a packet over 65,533 bytes. What they write, bg_handle reads as it
 * was meant, with the sequence number given here.
 */

/* An echo of a text: 11 bytes, a head of 1, 2 or 3 (for a text of under 24, under 256, or more bytes), and the text. */
uint32_t bg_write_echo(uint8_t sequence, const uint8_t *text, size_t text_len, uint8_t *out, size_t out_len, uint32_t *packet_len);

/* A reset: 9 bytes. */
uint32_t bg_write_reset(uint8_t sequence, uint8_t *out, size_t out_len, uint32_t *packet_len);

/* An erase of the upload slot: 9 bytes. */
uint32_t bg_write_erase(uint8_t sequence, uint8_t *out, size_t out_len, uint32_t *packet_len);

/*
 * An upload of data at an offset. At offset 0 the image's length goes with it, and its tag of 32 bytes where tag_len is not 0; at other
 * offsets neither is looked at. Refuses 12 also for an offset above 4,294,967,295, empty data, or at offset 0 a length of 0 or above
 * 4,294,967,295, data longer than the length, or a tag_len neither 0 nor 32. How much data fits: bg_most_data.
 */
uint32_t bg_write_upload(uint8_t sequence, const uint8_t *data, size_t data_len, uint64_t off, uint64_t length, const uint8_t *tag,
                         size_t tag_len, uint8_t *out, size_t out_len, uint32_t *packet_len);

/*
 * The most data that bg_write_upload, with this offset, length and tag_len, puts into an output of out_len bytes: it writes data of 1 to that many
 * bytes, and refuses any other. 0 where it refuses all data. For a controller whose packet buffer has n bytes, ask for the smaller of n and the
 * output's length.
 */
uint32_t bg_most_data(size_t out_len, uint64_t off, uint64_t length, size_t tag_len);

/*
 * Reads a packet as a reply. Returns 0 with
 * reply = { op, flags, payload length, group, sequence, command, rc, off there (0 or 1), off, text there (0 or 1), text start, text length };
 * rc is 0 where the reply has none, off 0 where it has none, and the text's start, counted from the packet's first byte, and length are 0
 * where it has none. A text that is there lies inside the packet: its start plus its length is at most packet_len. Refuses 10, and reply stays: op
 * neither 1 nor 3, a wrong length, or a map that is not well formed. Group, sequence and command are the caller's to compare with the request's.
 * What bg_handle replied is read as it was meant, but for a list of images: its map is not well formed here, since an array is no value that is skipped.
 */
uint32_t bg_read_reply(const uint8_t *packet, size_t packet_len, uint32_t reply[BG_REPLY]);

/* The sequence number after this one: 0 after 255. It refuses nothing. */
uint8_t bg_next_sequence(uint8_t sequence);

/*
 * Says where the first record of a file stands. Returns 0 with first = { its place in the file, the number of records }; the first record's place is that
 * of the trailer where there are none. Refuses 12 where the file is no recording, and first stays.
 */
uint32_t bg_first_record(const uint8_t *file, size_t file_len, size_t first[BG_FIRST]);

/*
 * Reads the record at a place of a file, which is a recording or not. Returns 0 with record = { 3E or 3C (hexadecimal), where its line starts in the file,
 * the line's length }; the next record stands behind the line. Returns 0 with record = { 0, at, 0 } where the file's last 8 bytes begin there: the records
 * are over. Refuses 12, and record stays: a file under 8 bytes, a place behind the first of the last 8 bytes, another first byte, or a
 * record that does not end before the last 8 bytes.
 * From the first record on, each time behind the last line, it gives the records of a recording in order, as many as bg_first_record says, and then that
 * they are over.
 */
uint32_t bg_next_record(const uint8_t *file, size_t file_len, size_t at, size_t record[BG_RECORD]);

/*
 * Replays a recording: each line to the controller goes, in order, to bg_take_line, and each packet that this completes to bg_handle with the layout
 * { 0, 4096, 4096, 4096 }; lines from the controller are passed over. All begins anew: the whole memory is set to 255, session record and tag are closed,
 * the reader's record is idle; the two buffers are taken as they are lent.
 * Returns 0 with *count the number of lines to the controller. The answer to the line of number k, from 0, stands in the four numbers from 4 * k on (see
 * BG_ANSWER), and the numbers behind the last answer stay. Memory, session record, tag, reader's record and both buffers are as those calls left them. A
 * reset that is asked ends the session, and the replay goes on.
 * Refuses 12, and everything stays: the file is no recording, or answers_len is under 4 times its number of records, those from the controller counted.
 */
uint32_t bg_replay(const uint8_t *file, size_t file_len, uint8_t memory[BG_BENCH_MEMORY], uint32_t session[BG_SESSION], uint8_t tag[BG_TAG],
                   uint32_t reader[BG_READER], uint8_t packet[BG_BENCH_BUFFER], uint8_t reply[BG_BENCH_BUFFER], uint32_t *answers,
                   size_t answers_len, size_t *count);

/*
 * Writes the text of a replay to the start of out, whose other bytes stay: for each of the first count answers a line of its number from 0, the refusal or
 * 0, and the rc, or '-' where there is no reply, with one blank between; then "end" and the session's place, or "end none" where it is closed. An answer's
 * place is not written. Numbers are in decimal, and each line ends in 0A, the last too. Returns 0 with *text_len the text's length. Refuses 12, and out and
 * *text_len stay: answers_len under 4 * count, or an output shorter than the text. A line has at most 43 bytes.
 */
uint32_t bg_write_transcript(const uint32_t *answers, size_t answers_len, size_t count, const uint32_t session[BG_SESSION], uint8_t *out, size_t out_len,
                             size_t *text_len);

#ifdef __cplusplus
}
#endif

#endif
