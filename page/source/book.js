// A term book: what the library says of it, where a fault lies, and how its years differ from ours.

// The years of a sound book: N, and whether the bytes are those that the library writes for it.
function yearsOf(length) {
    const years = [];
    let start = 0;
    while (start < length) {
        const { n, size } = readBookHead(start, length);
        const part = bytesAt(bookAt + start, size);
        years.push({ n, differs: writtenYear(n).some((byte, i) => byte !== part[i]) });
        start += size;
    }
    return years;
}

// Where the record at fault lies. The years before it are sound; in the year at fault every record before it is, so its place
// there says which one is due.
function faultWords(byte, length) {
    let start = 0;
    let before = null;
    while (start < byte) {
        const { refused, n, size } = readBookHead(start, length);
        if (refused) {
            break;
        }
        before = n;
        start += size;
    }
    if (start < byte) {
        const term = TERMS[(byte - start - HEAD_SIZE) / TERM_SIZE];
        return `in the year ${yearWords(EPOCH + headYear(start))}, term ${term}`;
    }
    return before === null ? 'in a head, the first' : `in a head, after the year ${yearWords(EPOCH + before)}`;
}

// What the lent book is: its years, if it is sound, and words about it.
function bookAnswer(length) {
    const { refused, byte } = checkBook(length);
    if (refused) {
        const where = faultWords(byte, length);
        return { refused, words: `Refused ${refused} at byte ${grouped(byte)}: ${REFUSALS[refused]}. It lies ${where}.` };
    }
    const years = yearsOf(length);
    if (years.length === 0) {
        return { refused, years, words: 'Sound: a book of no years.' };
    }
    const [first, last] = [years[0], years[years.length - 1]].map(({ n }) => yearWords(EPOCH + n));
    const count = years.length === 1 ? 'one year' : `${grouped(years.length)} years`;
    const differing = years.filter((year) => year.differs).length;
    return {
        refused,
        years,
        words: `Sound: ${count}, from ${first} to ${last}. Years that differ from ours: ${differing ? grouped(differing) : 'none'}.`,
    };
}

// What differs between a year of ours and the book's, item by item.
function differences(ours, theirs) {
    const unlike = (list, other) => list.map((value, k) => value !== other[k]);
    return {
        dayName: ours.dayName !== theirs.dayName,
        mansion: ours.mansion !== theirs.mansion,
        days: unlike(ours.days, theirs.days),
        minutes: unlike(ours.minutes, theirs.minutes),
    };
}

// The same in words, a line for the day name, the mansion and each term.
function differenceLines(ours, theirs, differs) {
    const versus = (what, value, other) => `${what} ${value}, ours ${other}`;
    const lines = [];
    if (differs.dayName) {
        lines.push(versus('day name', stemAndBranch(theirs.dayName), stemAndBranch(ours.dayName)));
    }
    if (differs.mansion) {
        lines.push(versus('duty mansion', MANSIONS[theirs.mansion], MANSIONS[ours.mansion]));
    }
    TERMS.forEach((term, k) => {
        const parts = [];
        if (differs.days[k]) {
            parts.push(versus('day', theirs.days[k], ours.days[k]));
        }
        if (differs.minutes[k]) {
            parts.push(versus('time', clock(theirs.minutes[k]), clock(ours.minutes[k])));
        }
        if (parts.length) {
            lines.push(`${term}: ${parts.join('; ')}`);
        }
    });
    return lines;
}
