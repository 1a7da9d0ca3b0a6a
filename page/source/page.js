// The page: its controls, what they ask, and what is shown for it.

const element = (id) => document.getElementById(id);

const NOTHING_DIFFERS = { dayName: false, mansion: false, days: [], minutes: [] };

let heldBook = null; // a sound book: its length and its years
let linkTimer;

// What the controls ask.

const askedYear = () => element('year').valueAsNumber;

// None for a longitude of one's own, the last choice.
const chosenPlace = () => PLACES[element('place').selectedIndex];

function askedLongitude() {
    const chosen = chosenPlace();
    if (chosen) {
        return chosen.longitude;
    }
    const [degrees, minutes, seconds] = ['degrees', 'minutes', 'seconds'].map((id) => element(id).valueAsNumber);
    return Number(element('side').value) * (3600 * degrees + 60 * minutes + seconds);
}

// The place's name on the wall; none at the capital, whose wall is the picture itself.
function askedPlaceName() {
    const chosen = chosenPlace();
    if (chosen === PLACES[0]) {
        return '';
    }
    return chosen ? chosen.name : `a place ${longitudeWords(askedLongitude())} of the capital`;
}

function setYear(year) {
    element('year').value = year;
    element('slider').value = year;
}

function setLongitude(longitude) {
    const [degrees, minutes, seconds] = sixties(longitude);
    Object.entries({ degrees, minutes, seconds }).forEach(([id, value]) => {
        element(id).value = value;
    });
    element('side').value = longitude < 0 ? '-1' : '1';
}

// The link: a place by its name, or a longitude in seconds of arc.

function readLink() {
    const link = new URLSearchParams(location.hash.slice(1));
    setYear(link.has('year') ? link.get('year') : EPOCH);
    const named = link.get('place') || PLACES[0].latin;
    const index = PLACES.findIndex(({ latin }) => latin.toLowerCase() === named.toLowerCase());
    element('place').selectedIndex = index < 0 ? PLACES.length : index;
    if (index < 0) {
        setLongitude(Number(named));
    }
}

// Not at every step of the slider: some browsers allow few changes a second.
function writeLink() {
    clearTimeout(linkTimer);
    linkTimer = setTimeout(() => {
        const chosen = chosenPlace();
        const placed = chosen ? chosen.latin.toLowerCase() : askedLongitude();
        history.replaceState(null, '', `#year=${element('year').value}&place=${placed}`);
    }, 200);
}

// What is shown.

const refusalWords = (refused) => `Refused ${refused}: ${REFUSALS[refused]}.`;

// The year with its terms at the place, or a refusal.
function atPlace(year, longitude) {
    const times = year.days.map((day, k) => localTime(day, year.minutes[k], longitude));
    const refused = times.map((time) => time.refused).find(Boolean);
    return refused ? { refused } : { ...year, days: times.map(({ day }) => day), minutes: times.map(({ minute }) => minute) };
}

// The year that is asked, at the place, or words why it is not shown.
function askedAnswer() {
    const [asked, longitude] = [askedYear(), askedLongitude()];
    if (!Number.isInteger(asked)) {
        return { words: 'A year is a whole number, -316 to 3684.' };
    }
    if (!Number.isInteger(longitude)) {
        return { words: 'A longitude is whole degrees, minutes and seconds.' };
    }
    const year = reckonedYear(asked - EPOCH);
    if (year.refused) {
        return { words: `${refusalWords(year.refused)} The year ${yearWords(asked)} has N = ${grouped(asked - EPOCH)}.` };
    }
    const there = atPlace(year, longitude);
    return there.refused ? { words: `${refusalWords(there.refused)} This one has ${grouped(longitude)}″.` } : { year: there };
}

function tableRow(year, k) {
    const dayName = stemAndBranch(year.dayName + 1 + year.days[k]);
    const julianDayNumber = dayZeroNumber(year.n, year.dayName) + year.days[k];
    const figures = [year.days[k], clock(year.minutes[k]), julianDayNumber, gregorianDate(julianDayNumber)];
    return `<tr><th scope="row" lang="zh-Hant">${TERMS[k]}</th><td lang="zh-Hant">${dayName}</td>` +
        `${figures.map((figure) => `<td>${figure}</td>`).join('')}</tr>`;
}

function showTable(year, placeName) {
    element('caption').textContent = `The terms of the year ${yearWords(EPOCH + year.n)}` + (placeName && `, by the time of ${placeName}`);
    element('rows').innerHTML = TERMS.map((_, k) => tableRow(year, k)).join('');
    element('copied').textContent = '';
}

// The held book's year beside ours; answers what differs.
function showBookYear(ours, placeName) {
    const said = element('book-year');
    [said, element('differences'), element('their-wall')].forEach((part) => {
        part.textContent = '';
    });
    element('theirs').hidden = true;
    if (!heldBook || !ours) {
        return NOTHING_DIFFERS;
    }
    const sought = seekYear(heldBook.length, ours.n);
    if (sought.refused) {
        said.textContent = `${refusalWords(sought.refused)} The book does not have the year ${yearWords(EPOCH + ours.n)}.`;
        return NOTHING_DIFFERS;
    }
    const theirs = atPlace(readYear(sought.start, heldBook.length), askedLongitude());
    const differs = differences(ours, theirs);
    const found = differenceLines(ours, theirs, differs);
    said.textContent = `The year ${yearWords(EPOCH + ours.n)} in the book: ${found.length ? 'what differs is marked.' : 'as ours.'}`;
    element('differences').innerHTML = found.map((line) => `<li>${line}</li>`).join('');
    element('their-wall').innerHTML = wall(theirs, differs, placeName);
    element('theirs').hidden = false;
    return differs;
}

// A number that the control shows already is not said again.
function namedYear(n) {
    const words = yearWords(EPOCH + n);
    return `${/ /.test(words) ? `${words} · ` : ''}${stemAndBranch(n)} · N = ${grouped(n)}`;
}

function show() {
    element('longitude').hidden = Boolean(chosenPlace());
    const { year, words } = askedAnswer();
    const placeName = askedPlaceName();
    element('said').textContent = words || '';
    element('ours').hidden = !year;
    element('terms').hidden = !year;
    element('year-words').textContent = year ? namedYear(year.n) : '';
    element('slider').setAttribute('aria-valuetext', year ? yearWords(EPOCH + year.n) : '');
    const differs = showBookYear(year, placeName);
    if (year) {
        year.midnights = midnights(year.n);
        document.title = `${yearWords(EPOCH + year.n)}: a year's wall`;
        element('our-wall').innerHTML = wall(year, differs, placeName);
        showTable(year, placeName);
    }
    element('page').classList.toggle('two', !element('theirs').hidden);
}

function ask() {
    show();
    writeLink();
}

// A book.

function sayOfBook(words, isRefused) {
    element('book-said').textContent = words;
    element('book-said').className = isRefused ? 'refused' : '';
}

function putAway() {
    heldBook = null;
    sayOfBook('', false);
    element('book-buttons').hidden = true;
    show();
}

async function openBook(file) {
    putAway();
    let bytes;
    try {
        bytes = new Uint8Array(await file.arrayBuffer());
        lendBook(bytes);
    } catch (error) {
        sayOfBook(`${file.name}: this file could not be read.`, true);
        return;
    }
    const answer = bookAnswer(bytes.length);
    sayOfBook(`${file.name}: ${answer.words}`, answer.refused > 0);
    if (answer.refused || answer.years.length === 0) {
        return;
    }
    heldBook = { length: bytes.length, years: answer.years };
    element('book-buttons').hidden = false;
    element('next-differing').hidden = !answer.years.some((year) => year.differs);
    if (!answer.years.some(({ n }) => n === askedYear() - EPOCH)) {
        setYear(EPOCH + answer.years[0].n);
    }
    ask();
}

function openFirst() {
    setYear(EPOCH + heldBook.years[0].n);
    ask();
}

// After the last one comes the first again.
function openNextDiffering() {
    const differing = heldBook.years.filter((year) => year.differs);
    const later = differing.filter(({ n }) => EPOCH + n > askedYear());
    setYear(EPOCH + (later.length ? later : differing)[0].n);
    ask();
}

// Copying: a row to a line, a tab between cells.

async function copyTable() {
    const rows = Array.from(element('terms').querySelectorAll('tr'));
    const text = rows.map((row) => Array.from(row.cells, (cell) => cell.textContent).join('\t')).join('\n');
    try {
        await navigator.clipboard.writeText(text);
        element('copied').textContent = 'Copied.';
    } catch (error) {
        getSelection().selectAllChildren(element('table'));
        element('copied').textContent = 'The table is selected: copy it with Ctrl+C.';
    }
}

// The start.

function offerPlaces() {
    const options = PLACES.map(({ name, latin, longitude }) => {
        const where = longitude === 0 ? 'the capital' : longitudeWords(longitude);
        return `<option>${name} ${latin}, ${where}</option>`;
    });
    element('place').innerHTML = `${options.join('')}<option>a longitude of one's own</option>`;
}

function listen() {
    const on = (id, event, action) => element(id).addEventListener(event, action);
    on('year', 'input', () => {
        element('slider').value = element('year').value;
        ask();
    });
    on('slider', 'input', () => {
        element('year').value = element('slider').value;
        ask();
    });
    ['place', 'degrees', 'minutes', 'seconds', 'side'].forEach((id) => on(id, 'input', ask));
    on('print', 'click', () => print());
    on('copy', 'click', copyTable);
    on('first', 'click', openFirst);
    on('next-differing', 'click', openNextDiffering);
    on('put-away', 'click', putAway);
    on('choose', 'click', () => element('file').click());
    on('file', 'change', () => {
        const [file] = element('file').files;
        element('file').value = ''; // so that the same file can be chosen again
        if (file) {
            openBook(file);
        }
    });
    window.addEventListener('hashchange', () => {
        readLink();
        show();
    });
    // A file may fall anywhere on the page: beside the field the browser would leave the page and show it.
    ['dragenter', 'dragover', 'dragleave', 'drop'].forEach((kind) => window.addEventListener(kind, (event) => {
        if (!event.dataTransfer.types.includes('Files')) {
            return;
        }
        event.preventDefault();
        element('drop').classList.toggle('over', kind === 'dragenter' || kind === 'dragover');
        if (kind === 'drop' && event.dataTransfer.files.length) {
            openBook(event.dataTransfer.files[0]);
        }
    }));
}

// Until the first year is shown, the page says that it cannot run here; so it does where anything above fails.
openLibrary(element('library').textContent.trim()).then(() => {
    offerPlaces();
    setLongitude(0);
    listen();
    readLink();
    show();
    element('cannot').hidden = true;
    element('page').hidden = false;
});
