/* One proved peer for a program in C: link libeditor_lib.a and the kit's c/liblibc_c.a.
 *
 * A slot is a pointer that the library keeps: begin it as `editor_slot s = {0};`, open a peer in it, and close it at the end.
 * What stands below is what the contracts of crates/editor_lib/src/calls.rt say, if the caller keeps to this:
 *
 *  - editor_open and editor_restore are given an empty slot, and every other call one with an open peer. No call tests that.
 *  - Nobody but these calls writes to a slot or to what it points to, and a slot is copied only to move it.
 *  - A pointer with a length points to so many bytes, which no other thread writes meanwhile, and which aren't the
 *    slot. It isn't null, also where the length is 0.
 *  - A peer stays on the thread that opened it. No call is made from a signal handler.
 *
 * Every call returns. Lines, answers, names, pieces and frames are those of docs/FORMATS.md. */
#ifndef EDITOR_H
#define EDITOR_H

#include <stddef.h>
#include <stdint.h>

typedef struct {
    void *desk;
} editor_slot;

/* How a call ended. */
enum {
    EDITOR_DONE = 0,      /* what was asked for was done, and the answer is there */
    EDITOR_BAD = 1,       /* the bytes aren't in the grammar, or are no journal; peer, answer, frame and rows are as they were */
    EDITOR_NO_MEMORY = 2, /* memory was wanting; peer, answer, frame and rows are as they were */
    EDITOR_UNTOLD = 3     /* the step was made, and memory was wanting to tell of it; answer, frame and rows are empty */
};

/* Opens a fresh peer of a site, which is its user's number, in an empty slot. Answer, frame and rows are empty.
 * DONE, or NO_MEMORY and the slot is still empty. */
uint32_t editor_open(editor_slot *slot, uint16_t site);

/* Opens in an empty slot the peer of a site whose journal is a row of messages, its own among them. The bytes are the frames of
 * the messages, one behind another. So a peer that was closed comes back by the frames of its journal's items in their order,
 * which `look` finds, but for what it held. A name that the site gave and that isn't among them may be given anew. No bytes give
 * a fresh peer. Answer, frame and rows are empty.
 * DONE. BAD exactly where the bytes aren't frames of messages one behind another to their end, or the messages are in this order
 * no journal within its limits, and memory isn't wanting. NO_MEMORY. After both the slot is still empty. */
uint32_t editor_restore(editor_slot *slot, uint16_t site, const uint8_t *frames, size_t frames_size);

/* Makes the step that a step line says, given without its line end. DONE: the peer is the one after the step, the answer is
 * the step's line, the frame is that of the message which the step issued, or of the journal's item that it found, and the
 * rows are the lines of edits, as `edit insert 0 a`, that make of the text which showed the one that shows, one after another:
 * at most one where no entry came, and at most as many as requests were undone where no request came. BAD exactly where the
 * bytes are no step line and memory isn't wanting. NO_MEMORY. UNTOLD: the peer is the one after the step; `look` at the
 * journal's last item tells again what was issued, and editor_show what shows. */
uint32_t editor_step(editor_slot *slot, const uint8_t *line, size_t line_size);

/* Receives the message whose frame is all of the bytes: as editor_step does where they are the frame of a message. Else BAD, of
 * a turn and of an end too, or NO_MEMORY. A message of a liar is no bad one: it has its answer. Held messages that are due by
 * now settle by steps `settle`, until one is answered `quiet`. */
uint32_t editor_receive(editor_slot *slot, const uint8_t *frame, size_t frame_size);

/* Puts the bytes of the text that the peer shows, UTF-8 as it is, in place of the answer. The peer, the frame and the rows stay.
 * DONE or NO_MEMORY. */
uint32_t editor_show(editor_slot *slot);

/* Puts the line `state STATE` of the request of a name, as `3.1`, in place of the answer, and nothing where the peer has no such
 * request. The peer, the frame and the rows stay. DONE, BAD exactly where the bytes spell no name, or NO_MEMORY. */
uint32_t editor_state(editor_slot *slot, const uint8_t *name, size_t name_size);

/* Puts the sizes of the pieces of that text, in their order, in place of the answer: a byte each, 1 to 255. So there are as many
 * bytes as elements that show, and the piece at a place, from 0, begins in what editor_show gives behind as many bytes as the
 * sizes in front of it make together. The peer, the frame and the rows stay. DONE or NO_MEMORY. */
uint32_t editor_sizes(editor_slot *slot);

/* Puts a number in place of the answer: how many elements show, in decimal, as `12`, without a line end. The peer, the frame and
 * the rows stay. DONE or NO_MEMORY. */
uint32_t editor_count(editor_slot *slot);

/* Puts the bytes of the piece that shows at a place, from 0, in place of the answer, and nothing where none shows there. The peer,
 * the frame and the rows stay. DONE or NO_MEMORY. */
uint32_t editor_piece_at(editor_slot *slot, uint32_t place);

/* Puts the sites of who wrote the pieces that show, in their order, in place of the answer: two bytes each, the higher first. It is
 * the site that changed the piece last, of the changes that are granted by the greatest name, and where none is the one that put it
 * in. The peer, the frame and the rows stay. DONE or NO_MEMORY. */
uint32_t editor_writers(editor_slot *slot);

/* Puts such a site in place of the answer, of what shows at a place, from 0: in decimal, as `12`, without a line end, and nothing
 * where nothing shows there. The peer, the frame and the rows stay. DONE or NO_MEMORY. */
uint32_t editor_writer_at(editor_slot *slot, uint32_t place);

/* Puts the name of the element that shows at a place, from 0, in place of the answer: as `3.1`, without a line end, and nothing
 * where none shows there. A caret that stands behind that element is kept by this name. The peer, the frame and the rows stay.
 * DONE or NO_MEMORY. */
uint32_t editor_name_at(editor_slot *slot, uint32_t place);

/* Puts a number in place of the answer: how many elements show up to the one of a name, as `3.1`, itself counted if it still
 * shows. That is the place of a caret behind it. It is in decimal, as `12`, without a line end; nothing where the peer has no
 * such element, as of `0.0`. The peer, the frame and the rows stay. DONE, BAD exactly where the bytes spell no name and memory
 * isn't wanting, or NO_MEMORY. */
uint32_t editor_shown_up_to(editor_slot *slot, const uint8_t *name, size_t name_size);

/* Puts the names of the requests that steps would undo, if the peer made them now one after another, in place of the answer: those
 * that are Tentative, and that would be Invalid behind the steps. They come in the order of the journal, a line each, as `3.1`, with
 * its line end. The bytes are the step lines, with a line end between two of them, and no bytes are no steps. A second peer of the
 * journal makes the steps, so what the peer holds isn't there, and a step that is refused undoes nothing. The peer, the frame and the
 * rows stay. DONE, BAD exactly where one of the lines is no step line and memory isn't wanting, or NO_MEMORY. */
uint32_t editor_would(editor_slot *slot, const uint8_t *lines, size_t lines_size);

/* Copies the answer to the front of a buffer if it fits, else nothing. Gives its length in both cases. Changes nothing else. */
size_t editor_answer(editor_slot *slot, uint8_t *buffer, size_t buffer_size);

/* Does the same with the frame. Its length is 0 where the last answer gave no message, and at most 280. */
size_t editor_frame(editor_slot *slot, uint8_t *buffer, size_t buffer_size);

/* Does the same with the rows of the last step, a line each with its line end. Their length is 0 where it changed no text. */
size_t editor_rows(editor_slot *slot, uint8_t *buffer, size_t buffer_size);

/* Closes the peer. The slot is empty, and the memory is given back. */
void editor_close(editor_slot *slot);

#endif
