// The wall, drawn as the picture of the program ring is: the same texts in the same places of a field of 1,000 by 1,000. Colours
// are the style's.

const WALL_FONTS = 'Noto Serif CJK TC,Noto Serif TC,Source Han Serif TC,Songti TC,PMingLiU,Noto Serif CJK SC,Noto Serif SC,SimSun,serif';

const WALL_EXPLAINED = 'Each term stands at its mark, 15 degrees apart, the winter solstice at the top: its name; the name of its day ' +
    "and the day's number, where day 0 is the day after the mean solstice's day; its time.";
const TICKS_EXPLAINED = " The inner ticks are the bureau's true sun at 365 midnights, from day -1 on.";

// A point at a part of the circle, clockwise from the top, so far from the middle to the side and downwards.
function point(part, across, down) {
    const angle = 2 * Math.PI * part;
    return `${(500 + across * Math.sin(angle)).toFixed(1)} ${(500 - down * Math.cos(angle)).toFixed(1)}`;
}

const radial = (part, inner, outer) => `M${point(part, inner, inner)}L${point(part, outer, outer)}`;

const marked = (text, differs) => (differs ? `<tspan class="differs">${text}</tspan>` : `${text}`);

function termBlock(year, differs, k) {
    const quarter = k % 6 === 0;
    const dayName = stemAndBranch(year.dayName + 1 + year.days[k]);
    const nameDiffers = differs.dayName || differs.days[k];
    return `<path class="mark" d="${radial(k / 24, quarter ? 300 : 316, 346)}" stroke-width="${quarter ? 3 : 2}"/>` +
        `<g transform="translate(${point(k / 24, 420, 408)})">` +
        `<text y="-11" font-size="27" font-weight="600"${quarter ? ' class="quarter"' : ''}>${TERMS[k]}</text>` +
        `<text y="13">${marked(dayName, nameDiffers)} ` +
        `<tspan class="pale" font-size="16">${marked(year.days[k], differs.days[k])}</tspan></text>` +
        `<text y="36">${marked(clock(year.minutes[k]), differs.minutes[k])}</text></g>`;
}

// A book has no fraction, so its mean solstice has no time.
function middle(year, differs, placeName) {
    const [, number, words] = yearWords(EPOCH + year.n).match(/^(\d+)(.*)$/);
    const time = year.fraction === undefined ? '' : ` ${clock(Math.floor((year.fraction * 1440) / 1e9))}`;
    const lines = [
        `<text x="500" y="452" font-size="92" font-weight="600">${stemAndBranch(year.n)}</text>`,
        `<text x="500" y="520" font-size="44">${number}<tspan font-size="26">${words}</tspan></text>`,
        `<text x="500" y="572" font-size="22">mean solstice ${marked(stemAndBranch(year.dayName), differs.dayName)}${time}</text>`,
        `<text x="500" y="604" font-size="22">day 0 ${marked(stemAndBranch(year.dayName + 1), differs.dayName)}, ` +
            `duty mansion ${marked(MANSIONS[year.mansion], differs.mansion)}</text>`,
        '<text x="500" y="660" class="pale" lang="en" font-size="16">each term: name · its day · day number · time</text>',
    ];
    if (year.midnights) {
        lines.push('<text x="500" y="684" class="pale" lang="en" font-size="16">inner ticks: the sun at each midnight</text>');
    }
    if (placeName) {
        lines.push(`<text x="500" y="632" class="pale" lang="en" font-size="16">the terms by the time of ${placeName}</text>`);
    }
    return lines.join('');
}

// A year with its terms at a place; `differs` says what is to be marked. A book's year has no sun, and so no ticks.
function wall(year, differs, placeName) {
    const title = `The 24 solar terms of the year ${yearWords(EPOCH + year.n)}` + (year.midnights ? '' : ' in the book') +
        (placeName && `, by the time of ${placeName}`);
    const ticks = year.midnights ? year.midnights.map((part) => radial(part, 301, 311)).join('') : '';
    return `<svg viewBox="0 0 1000 1000" role="img" lang="zh-Hant" font-family="${WALL_FONTS}" font-size="19" text-anchor="middle">` +
        `<title lang="en">${title}</title><desc lang="en">${WALL_EXPLAINED}${year.midnights ? TICKS_EXPLAINED : ''}</desc>` +
        '<g class="circles"><circle cx="500" cy="500" r="336" stroke-width="2.5"/><circle cx="500" cy="500" r="300"/></g>' +
        `<path class="ticks" d="${ticks}"/>` +
        TERMS.map((_, k) => termBlock(year, differs, k)).join('') + middle(year, differs, placeName) + '</svg>';
}
