// The proved library's calls, as bindings/c/bhromilun.h has them: an answer has `refused`, 0 or the refusal's number, and what the
// call stores. Pointers are plain numbers in the browser; all other numbers have 64 bits, and come and go as BigInts. The library
// keeps nothing and needs no room of its own but its stack, so what follows that is ours: numbers that it stores, a year's part
// that it writes, and the book that it is lent.

const SLOTS = 72; // of 8 bytes each, for three arrays of 24
const YEAR_SIZE = 149;
const HEAD_SIZE = 5;
const TERM_SIZE = 6;

let library; // its functions and its memory
let numbersAt; // where our room starts
let yearAt;
let bookAt;

async function openLibrary(base64) {
    const bytes = Uint8Array.from(atob(base64), (character) => character.charCodeAt(0));
    library = (await WebAssembly.instantiate(bytes, {})).instance.exports;
    numbersAt = library.__heap_base.value;
    yearAt = numbersAt + 8 * SLOTS;
    bookAt = yearAt + YEAR_SIZE;
    makeRoom(bookAt);
}

function makeRoom(end) {
    const missing = end - library.memory.buffer.byteLength;
    if (missing > 0) {
        library.memory.grow(Math.ceil(missing / 65536));
    }
}

const slot = (i) => numbersAt + 8 * i;

// The numbers that a call has stored, from a slot on. None is too large for a plain number.
const stored = (i, count) => Array.from(new BigInt64Array(library.memory.buffer, slot(i), count), Number);

const bytesAt = (at, size) => new Uint8Array(library.memory.buffer, at, size);

// A number that is far out of range stays so: a BigInt of more than 64 bits would be cut.
const given = (number) => BigInt(Math.max(-1e15, Math.min(1e15, number)));

function reckonedYear(n) {
    const refused = Number(library.bhromilun_year(given(n), slot(0), slot(1), slot(2)));
    if (refused) {
        return { refused };
    }
    const [dayName, fraction, mansion] = stored(0, 3);
    library.bhromilun_terms(given(n), slot(0), slot(24), slot(48)); // refuses as the call before
    return { refused, n, dayName, fraction, mansion, days: stored(0, 24), minutes: stored(24, 24) };
}

// The true sun at the midnights of 365 days from day -1 on, in parts of the circle.
function midnights(n) {
    return Array.from({ length: 365 }, (_, i) => {
        library.bhromilun_true_place(given(n), given(i - 1), slot(0)); // no day of these is refused
        return stored(0, 1)[0] / 77760000000000;
    });
}

function localTime(day, minute, longitude) {
    const refused = Number(library.bhromilun_local_time(given(day), given(minute), given(longitude), slot(0), slot(1)));
    const [dayThere, minuteThere] = stored(0, 2);
    return refused ? { refused } : { refused, day: dayThere, minute: minuteThere };
}

function lendBook(bytes) {
    makeRoom(bookAt + bytes.length);
    bytesAt(bookAt, bytes.length).set(bytes);
}

function checkBook(length) {
    const refused = Number(library.bhromilun_check_book(bookAt, given(length), slot(0)));
    return { refused, byte: stored(0, 1)[0] };
}

// N of the year that starts at a byte of the memory, and how many bytes it has; the rest stays in its slots.
function readHead(at, length) {
    const refused = Number(library.bhromilun_read_year(
        at, given(length), slot(0), slot(1), slot(2), slot(3), slot(27), slot(51), slot(52),
    ));
    return refused ? { refused } : { refused, n: stored(0, 1)[0], size: stored(51, 1)[0] };
}

// The same at a byte of the lent book.
const readBookHead = (start, length) => readHead(bookAt + start, length - start);

// A year of a sound book, whole.
function readYear(start, length) {
    const { n } = readBookHead(start, length);
    const [dayName, mansion] = stored(1, 2);
    return { n, dayName, mansion, days: stored(3, 24), minutes: stored(27, 24) };
}

function seekYear(length, n) {
    const refused = Number(library.bhromilun_seek_year(bookAt, given(length), given(n), slot(0), slot(1), slot(2)));
    return refused ? { refused } : { refused, start: stored(0, 1)[0] };
}

function writtenYear(n) {
    library.bhromilun_write_year(given(n), yearAt, given(YEAR_SIZE)); // of a year that a sound book has: not refused
    return bytesAt(yearAt, YEAR_SIZE);
}

// The N of a sound head whose terms are not sound: it is read before the terms of another year.
function headYear(start) {
    writtenYear(0).set(bytesAt(bookAt + start, HEAD_SIZE));
    return readHead(yearAt, YEAR_SIZE).n;
}
