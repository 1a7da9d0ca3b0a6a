// What things are called, and dates: all that the page says beside the library's figures.

const STEMS = '甲乙丙丁戊己庚辛壬癸';
const BRANCHES = '子丑寅卯辰巳午未申酉戌亥';
// 參 before 觜, as in the bureau's table of 1684.
const MANSIONS = '角亢氐房心尾箕斗牛女虛危室壁奎婁胃昴畢參觜井鬼柳星張翼軫';
const TERMS = ('冬至 小寒 大寒 立春 雨水 驚蟄 春分 清明 穀雨 立夏 小滿 芒種 ' +
    '夏至 小暑 大暑 立秋 處暑 白露 秋分 寒露 霜降 立冬 小雪 大雪').split(' ');
const MONTHS = ('January February March April May June ' +
    'July August September October November December').split(' ');

// Source 002's places in its order, after the capital: seconds of arc east of the capital, west negative.
const PLACES = [
    ['京師', 'Jingshi', 0],
    ['盛京', 'Shengjing', 26100],
    ['浙江', 'Zhejiang', 13284],
    ['福建', 'Fujian', 10740],
    ['江南', 'Jiangnan', 8280],
    ['山東', 'Shandong', 8100],
    ['江西', 'Jiangxi', -2220],
    ['河南', 'Henan', -6960],
    ['湖廣', 'Huguang', -8220],
    ['廣東', 'Guangdong', -12795],
    ['山西', 'Shanxi', -14262],
    ['廣西', 'Guangxi', -22480],
    ['陝西', 'Shaanxi', -27220],
    ['貴州', 'Guizhou', -35560],
    ['四川', 'Sichuan', -44160],
    ['雲南', 'Yunnan', -49020],
    ['朝鮮', 'Chaoxian', 37800],
].map(([name, latin, longitude]) => ({ name, latin, longitude }));

// Those that the calls used here can give.
const REFUSALS = {
    1: 'an N outside -2,000 to 2,000',
    2: 'a day outside -4 to 370, or a minute above 1,439',
    4: 'a longitude beyond 648,000″ either way',
    7: 'the book ends inside a record',
    8: 'a kind that is neither 01 nor 02',
    9: 'a field out of its range',
    10: 'a record out of turn, or the book ends inside a year',
    12: 'a year absent from a sound book',
};

const EPOCH = 1684; // the year N = 0

const modulo = (number, by) => ((number % by) + by) % by;

const grouped = (number) => number.toLocaleString('en-US');

// The name of a day or a year; 甲子 is 0.
const stemAndBranch = (number) => STEMS[modulo(number, 10)] + BRANCHES[modulo(number, 12)];

// A year before the year 1 is said in words, as the picture does.
const yearWords = (year) => (year > 0 ? `${year}` : `${1 - year} before the common era`);

const twoDigits = (number) => String(number).padStart(2, '0');

const clock = (minute) => `${twoDigits(Math.floor(minute / 60))}:${twoDigits(minute % 60)}`;

// Degrees, minutes and seconds of a longitude's size.
function sixties(longitude) {
    const size = Math.abs(longitude);
    return [Math.floor(size / 3600), Math.floor(size / 60) % 60, size % 60];
}

function longitudeWords(longitude) {
    const [degrees, minutes, seconds] = sixties(longitude);
    return `${degrees}°${twoDigits(minutes)}′${twoDigits(seconds)}″ ${longitude < 0 ? 'west' : 'east'}`;
}

// The Julian Day Number of day 0. The day name fixes the mean solstice's day but for whole sixties; N mean years tell how many.
function dayZeroNumber(n, dayName) {
    return 2336111 + dayName + 60 * Math.round((365.2421875 * n - dayName) / 60) + 1;
}

// The browser's own calendar is Gregorian at all times; its day 0 is 1 January 1970, day 2,440,588.
function gregorianDate(julianDayNumber) {
    const date = new Date((julianDayNumber - 2440588) * 86400000);
    return `${date.getUTCDate()} ${MONTHS[date.getUTCMonth()]} ${yearWords(date.getUTCFullYear())}`;
}
