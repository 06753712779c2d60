// @ts-check
/** What `save` mends of what browsers and their editing commands leave behind, over a small DOM. */

import { test } from "node:test";
import assert from "node:assert/strict";
import { save } from "../bughtiso.js";
import { Part, read } from "../lib/markup.js";
import { TEXT, category, fill, newCategory, page, saved } from "./edited.js";
import { randomFrom } from "./mutations.js";
import { SmallDocument } from "./small_dom.js";

/** @param {number} number */
function reference(number) {
  return `<span typeof="mw:Extension/ref" id="mw${number}"></span>`;
}

/** @param {string} text */
function link(text) {
  return `<a rel="mw:WikiLink" href="./D" id="mw8">${text}</a>`;
}

/** @param {string} row */
function cells(row) {
  return `<table id="mw10"><tbody id="mw11"><tr id="mw12">${row}</tr></tbody></table>`;
}

const MENDS = [
  [
    "strong and em become b and i",
    TEXT,
    '<p id="mw1">one <strong>x</strong> <em>y</em></p>',
    '<p id="mw1">one <b>x</b> <i>y</i></p>',
  ],
  [
    "font and span vanish, their style stays",
    "",
    '<p><font color="red">a</font><span>b</span><span style="font-weight:700">c</span></p>',
    "<p>ab<b>c</b></p>",
  ],
  [
    "a style that says normal is none, a style round blocks is in each",
    "",
    '<b style="font-weight: normal"><p>a</p><i><h2>b</h2><p>c</p></i></b>e<i style="FONT-STYLE:normal">f</i>',
    "<p>a</p><h2><i>b</i></h2><p><i>c</i></p><p>ef</p>",
  ],
  [
    "a link of the page keeps its address, a new one has no signs of wikitext",
    '<p id="mw1"><a rel="mw:ExtLink" href="https://x.y/a|{b}" id="mw2">c</a></p>',
    '<p id="mw1"><a rel="mw:ExtLink" href="https://x.y/a|{b}" id="mw2">cd</a> ' +
      '<a href="https://x.y/|\'\'">e</a></p>',
    '<p id="mw1"><a rel="mw:ExtLink" href="https://x.y/a|{b}" id="mw2">cd</a> ' +
      '<a rel="mw:ExtLink" href="https://x.y/%7C%27%27">e</a></p>',
  ],
  [
    "bold in bold and italic in italic are their inside",
    "",
    '<p><b>a<strong>b</strong><i>c<b>d</b></i></b><i>e<em>f</em><span style="font-style: italic">g</span></i></p>',
    "<p><b>ab<i>cd</i></b><i>efg</i></p>",
  ],
  [
    "comments, scripts and pictures are left out",
    "",
    "<p>a<comment>x</comment><script>y</script><img></img>b</p>",
    "<p>ab</p>",
  ],
  [
    "unknown attributes are left out",
    TEXT,
    '<p id="mw1" style="x" class="y" contenteditable="true">z</p>',
    '<p id="mw1">z</p>',
  ],
  [
    "the first of two equal ids stays",
    TEXT,
    '<p id="mw1">one</p><p id="mw1">two</p>',
    '<p id="mw1">one</p><p>two</p>',
  ],
  [
    "an empty first half leaves its id",
    TEXT,
    '<p id="mw1"><br/></p><p id="mw1">one</p>',
    '<p id="mw1">one</p>',
  ],
  [
    "an id on another kind is taken off",
    TEXT,
    '<p id="mw1">one <span id="mw2">two</span></p>',
    '<p id="mw1">one two</p>',
  ],
  ["an unknown id is taken off", TEXT, '<p id="mw9">one</p>', "<p>one</p>"],
  ["a div is a paragraph", "", "<div>a</div><div><div>b</div>c</div>", "<p>a</p><p>b</p><p>c</p>"],
  [
    "text directly in the body is a paragraph",
    TEXT,
    '<p id="mw1">a</p>b <b>c</b>',
    '<p id="mw1">a</p><p>b <b>c</b></p>',
  ],
  [
    "a list in a paragraph splits it",
    TEXT,
    '<p id="mw1">a<ul><li>b</li></ul>c</p>',
    '<p id="mw1">a</p><ul><li>b</li></ul><p>c</p>',
  ],
  ["the last line break of a block goes", TEXT, '<p id="mw1">one<br/></p>', '<p id="mw1">one</p>'],
  ["an emptied paragraph goes", TEXT, '<p id="mw1"><br/></p>', ""],
  [
    "no-break spaces that a browser put are blanks",
    TEXT,
    '<p id="mw1">one\u00a0 <b id="mw2">two</b> three</p>',
    '<p id="mw1">one  <b id="mw2">two</b> three</p>',
  ],
  [
    "no-break spaces of the page stay",
    '<p id="mw1">a\u00a0b c</p>',
    '<p id="mw1">a\u00a0b cd</p>',
    '<p id="mw1">a\u00a0b cd</p>',
  ],
  [
    "zero-width spaces that were typed go",
    '<p id="mw1">a b c</p>',
    '<p id="mw1">a b\u200bx c</p>',
    '<p id="mw1">a bx c</p>',
  ],
  [
    "zero-width spaces of the page stay between two changes",
    '<p id="mw1">a b\u200bc <b id="mw2">d\u200be</b> f</p>',
    '<p id="mw1">x b\u200bc <b id="mw2">d\u200be</b> y</p>',
    '<p id="mw1">x b\u200bc <b id="mw2">d\u200be</b> y</p>',
  ],
  [
    "zero-width spaces of the page stay between two changes of an item, and in a link there",
    `<ul id="mw1"><li id="mw2">a b\u200bc ${link("d\u200be")} f</li></ul>`,
    `<ul id="mw1"><li id="mw2">x b\u200bc ${link("d\u200be")} y</li></ul>`,
    `<ul id="mw1"><li id="mw2">x b\u200bc ${link("d\u200be")} y</li></ul>`,
  ],
  [
    "zero-width spaces of the page stay between two changes of a cell",
    cells('<td id="mw9">a b\u200bc d</td>'),
    cells('<td id="mw9">x b\u200bc y</td>'),
    cells('<td id="mw9">x b\u200bc y</td>'),
  ],
  [
    "form feeds, vertical tabs and byte order marks of the page stay",
    '<p id="mw1">a\fb c\vd \ufeffe</p>',
    '<p id="mw1">x\fb c\vd \ufefff</p>',
    '<p id="mw1">x&#12;b c&#11;d \ufefff</p>',
  ],
  [
    "those that were typed go",
    TEXT,
    '<p id="mw1">a\fb c\vd \ufeffe</p>',
    '<p id="mw1">a b c d e</p>',
  ],
  [
    "what the page has between the same letters stays where its paragraph is split",
    '<p id="mw1">a b\u200bc d\u200be f\u00a0g</p>',
    '<p id="mw1">a b\u200bc</p><p id="mw1">d\u200be f\u00a0g \u00a0h\u200b</p>',
    '<p id="mw1">a b\u200bc</p><p>d\u200be f\u00a0g  h</p>',
  ],
  [
    "line breaks of the page come back",
    '<p id="mw1">a b\nc d</p>',
    '<p id="mw1">a bx c d</p>',
    '<p id="mw1">a bx\nc d</p>',
  ],
  ["carriage returns are line breaks", TEXT, '<p id="mw1">a&#13;\nb</p>', '<p id="mw1">a\nb</p>'],
  ["blanks at a block's ends go", TEXT, '<p id="mw1">\u00a0x </p>', '<p id="mw1">x</p>'],
  [
    "a blank that is left where the first or last word was deleted goes",
    '<h2 id="mw1">a b c</h2><p id="mw2">a b</p><ul id="mw3"><li id="mw4">a b</li></ul>' +
      '<dl id="mw5"><dt id="mw6">a b</dt><dd id="mw7">a b</dd></dl>' + cells('<td id="mw9">a b</td>'),
    '<h2 id="mw1"> b </h2><p id="mw2">\u00a0b</p><ul id="mw3"><li id="mw4"> b</li></ul>' +
      '<dl id="mw5"><dt id="mw6"> b</dt><dd id="mw7"> b</dd></dl>' + cells('<td id="mw9"> b</td>'),
    '<h2 id="mw1">b</h2><p id="mw2">b</p><ul id="mw3"><li id="mw4">b</li></ul>' +
      '<dl id="mw5"><dt id="mw6">b</dt><dd id="mw7">b</dd></dl>' + cells('<td id="mw9">b</td>'),
  ],
  [
    "blanks at the ends of new blocks go, those of the page's stay",
    cells('<td id="mw9">a </td>'),
    '<h2> a </h2><p> a </p><ul><li> a </li></ul><dl><dt> a </dt><dd> a </dd></dl>' +
      cells('<td id="mw9">b </td><td id="mw9">a </td><td> c </td>'),
    "<h2>a</h2><p>a</p><ul><li>a</li></ul><dl><dt>a</dt><dd>a</dd></dl>" +
      cells('<td id="mw9">b </td><td>a</td><td>c</td>'),
  ],
  [
    "in a pre they stay",
    '<pre id="mw1">a b</pre>',
    '<pre id="mw1"> b </pre>',
    '<pre id="mw1"> b </pre>',
  ],
  [
    "a new category, a new switch and one that took the place of another stay",
    `<p id="mw1">a\n${category(2)}</p>`,
    '<p id="mw1">a\n<link rel="mw:PageProp/Category" href="./Category:Y" id="mw9" data-parsoid="{}"/></p>' +
      '<meta property="mw:PageProp/notoc"/>',
    `<p id="mw1">a\n${newCategory("Y")}</p><meta property="mw:PageProp/notoc"/>`,
  ],
  [
    "copies of a category are left out, with its id and without",
    `<p id="mw1">a\n${category(2)}</p><p id="mw3">b</p>`,
    `<p id="mw1">a\n${category(2)}</p><p id="mw3">b ${category(2)}</p>${newCategory("X")}`,
    `<p id="mw1">a\n${category(2)}</p><p id="mw3">b</p>`,
  ],
  [
    "a category that was moved without its id stays",
    `<p id="mw1">a\n${category(2)}</p><p id="mw3">b</p>`,
    `<p id="mw1">a</p><p id="mw3">b${newCategory("X")}</p>`,
    `<p id="mw1">a</p><p id="mw3">b${newCategory("X")}</p>`,
  ],
  [
    "new comments and skips are left out",
    TEXT,
    '<p id="mw1">a<meta typeof="mw:Comment"/>b<meta typeof="mw:Skip" id="mw9"/></p>',
    '<p id="mw1">ab</p>',
  ],
  [
    "a new footnote, image or call is one thing, in whatever element it stands",
    TEXT,
    '<p id="mw1">a<sup typeof="mw:Extension/ref" class="x" data-mw="{}">[1]</sup></p>' +
      '<figure typeof="mw:File/Thumb"><a href="./File:A.png"><img></img></a>' +
      "<figcaption>b</figcaption></figure>" +
      '<p><span typeof="mw:Transclusion">c</span></p>',
    '<p id="mw1">a<span typeof="mw:Extension/ref" data-mw=\'{}\'></span></p>' +
      '<p><span typeof="mw:File/Thumb"></span></p><p><span typeof="mw:Transclusion"></span></p>',
  ],
  [
    "a link without rel leads to a page",
    "",
    '<p><a href="Main Page">x</a></p>',
    '<p><a rel="mw:WikiLink" href="./Main_Page">x</a></p>',
  ],
  [
    "a link without rel leads to an address",
    "",
    '<p><a href="http://a.b/c d">x</a></p>',
    '<p><a rel="mw:ExtLink" href="http://a.b/c%20d">x</a></p>',
  ],
  ["an address of another kind is no link", "", '<p><a href="javascript:x">y</a></p>', "<p>y</p>"],
  [
    "blanks stand outside a link",
    "",
    '<p>x<a rel="mw:WikiLink" href="./Y"> y </a>z</p>',
    '<p>x <a rel="mw:WikiLink" href="./Y">y</a> z</p>',
  ],
  [
    "an emptied link goes",
    '<p id="mw1">a <a rel="mw:WikiLink" href="./X" id="mw2">b</a></p>',
    '<p id="mw1">a <a rel="mw:WikiLink" href="./X" id="mw2"></a></p>',
    '<p id="mw1">a</p>',
  ],
  [
    "what is typed at an entity stands beside it",
    '<p id="mw1">a<span typeof="mw:Entity" id="mw2">–</span></p>',
    '<p id="mw1">a<span typeof="mw:Entity" id="mw2">–b</span></p>',
    '<p id="mw1">a<span typeof="mw:Entity" id="mw2">–</span>b</p>',
  ],
  [
    "a line break in an entity stands beside it",
    '<p id="mw1">a<span typeof="mw:Entity" id="mw2">–</span>b</p>',
    '<p id="mw1">a<span typeof="mw:Entity" id="mw2">–<br/>x</span>b</p>',
    '<p id="mw1">a<span typeof="mw:Entity" id="mw2">–</span><br/>xb</p>',
  ],
  [
    "an entity may be made bold",
    '<p id="mw1">a<span typeof="mw:Entity" id="mw2">–</span>b</p>',
    '<p id="mw1">a<span typeof="mw:Entity" id="mw2"><b>–x</b></span>b</p>',
    '<p id="mw1">a<b><span typeof="mw:Entity" id="mw2">–</span>x</b>b</p>',
  ],
  [
    "paragraphs in an item are its lines",
    '<ul id="mw1"><li id="mw2">a</li></ul>',
    '<ul id="mw1"><li id="mw2"><p>a</p><p>b</p></li></ul>',
    '<ul id="mw1"><li id="mw2">a<br/>b</li></ul>',
  ],
  [
    "a new list before text of an item is its lines",
    '<ul id="mw1"><li id="mw2">ab</li></ul>',
    '<ul id="mw1"><li id="mw2">a<ul><li>x</li><li>y</li></ul>b</li></ul>',
    '<ul id="mw1"><li id="mw2">a<br/>x<br/>y<br/>b</li></ul>',
  ],
  [
    "a new list behind the text of an item stays",
    '<ul id="mw1"><li id="mw2">ab</li></ul>',
    '<ul id="mw1"><li id="mw2">ab<ul><li>x</li></ul></li></ul>',
    '<ul id="mw1"><li id="mw2">ab<ul><li>x</li></ul></li></ul>',
  ],
  [
    "text behind a list of the page in an item is an indented line behind it",
    '<ul id="mw1"><li id="mw2">a<ul id="mw3"><li id="mw4">b</li></ul></li><li id="mw5">c</li></ul>',
    '<ul id="mw1"><li id="mw2">a<ul id="mw3"><li id="mw4">b</li></ul><p>d <b>e</b></p><p>f</p></li>' +
      '<li id="mw5">c</li></ul>',
    '<ul id="mw1"><li id="mw2">a<ul id="mw3"><li id="mw4">b</li></ul><dl><dd>d <b>e</b><br/>f</dd></dl></li>' +
      '<li id="mw5">c</li></ul>',
  ],
  [
    "behind a list of terms it is one more of it",
    '<dl id="mw1"><dd id="mw2">a<dl id="mw3"><dd id="mw4">b</dd></dl></dd></dl>',
    '<dl id="mw1"><dd id="mw2">a<dl id="mw3"><dd id="mw4">b</dd></dl><br/> c<br/></dd></dl>',
    '<dl id="mw1"><dd id="mw2">a<dl id="mw3"><dd id="mw4">b</dd><dd>c</dd></dl></dd></dl>',
  ],
  [
    "text behind a block of a cell is a paragraph",
    cells('<td id="mw1">a<ul id="mw2"><li id="mw3">b</li></ul></td>'),
    cells('<td id="mw1">a<ul id="mw2"><li id="mw3">b</li></ul>c <b>d</b></td>'),
    cells('<td id="mw1">a<ul id="mw2"><li id="mw3">b</li></ul><p>c <b>d</b></p></td>'),
  ],
  [
    "items in another kind of list are of its kind",
    '<ul id="mw1"><li id="mw2">a</li><li id="mw3">b</li></ul>',
    '<dl><li id="mw2">a</li></dl><ul id="mw1"><dt>c</dt><li id="mw3">b</li></ul>',
    '<dl><dd>a</dd></dl><ul id="mw1"><li>c</li><li id="mw3">b</li></ul>',
  ],
  [
    "the rows of a pasted table are in one body",
    "",
    "<table><caption>a</caption><colgroup><col></col></colgroup><thead><tr><th>b</th></tr></thead>" +
      "<tbody><tr><td>c</td></tr></tbody><tbody><tr><td>d</td></tr></tbody></table>",
    "<table><caption>a</caption><tbody><tr><th>b</th></tr><tr><td>c</td></tr><tr><td>d</td></tr></tbody></table>",
  ],
  [
    "rows and cells are in a table, the body of the page's stays",
    cells('<td id="mw1">a</td>'),
    '<table id="mw10"><tr><td>b</td></tr><tbody id="mw11"><tr id="mw12"><td id="mw1">a</td>c<b>d</b></tr>' +
      "<td>e</td></tbody></table><tr><td>f</td><td>g</td></tr>",
    '<table id="mw10"><tbody id="mw11"><tr><td>b</td></tr><tr id="mw12"><td id="mw1">a</td><td>c<b>d</b></td></tr>' +
      "<tr><td>e</td></tr></tbody></table><p>f</p><p>g</p>",
  ],
  [
    "a group stays whole where it can't be",
    '<ul id="mw1"><li id="mw2">a</li></ul><table about="#mwt1" id="mw3" data-mw="{}"><tbody></tbody></table>',
    '<ul id="mw1"><li id="mw2">a<table about="#mwt1" id="mw3" data-mw="{}"><tbody></tbody></table>b</li></ul>',
    '<ul id="mw1"><li id="mw2">a<table about="#mwt1" id="mw3" data-mw=\'{}\'><tbody></tbody></table>b</li></ul>',
  ],
  [
    "of a blank at an edge of a link, where a word was deleted, nothing stays beside another",
    `<p id="mw1">a ${link("b c")} d</p>`,
    `<p id="mw1">a ${link("\u00a0c")} d</p>`,
    `<p id="mw1">a ${link("c")} d</p>`,
  ],
  [
    "nor at its end, nor of one that was emptied; where none is beside it it stands outside",
    `<p id="mw1">a ${link("b c")} d</p><p id="mw2">a${link("b c").replace("mw8", "mw9")}d ` +
      `${link("b c").replace("mw8", "mw10")} e</p>`,
    `<p id="mw1">a ${link("b ")} d</p><p id="mw2">a${link(" c").replace("mw8", "mw9")}d ` +
      `${link(" ").replace("mw8", "mw10")} e</p>`,
    `<p id="mw1">a ${link("b")} d</p><p id="mw2">a ${link("c").replace("mw8", "mw9")}d  e</p>`,
  ],
  [
    "an empty new item goes",
    '<ul id="mw1"><li id="mw2">a</li></ul>',
    '<ul id="mw1"><li id="mw2">a</li><li><br/></li></ul>',
    '<ul id="mw1"><li id="mw2">a</li></ul>',
  ],
  [
    "a carrier is undone",
    "",
    '<table><template data-wt-name="meta" typeof="mw:Comment"/></table>'.replace("/>",
    "></template>"),
    "<table></table>",
  ],
  [
    "a comment goes back into the block that held it",
    '<p id="mw1">one two<meta typeof="mw:Comment" id="mw2"/> three</p><p id="mw3">x</p>',
    '<p id="mw1">one more two threes</p><meta typeof="mw:Comment" id="mw2"/><p id="mw3">x</p>',
    '<p id="mw1">one more two<meta typeof="mw:Comment" id="mw2"/> threes</p><p id="mw3">x</p>',
  ],
  [
    "a skip goes back into the link that held it",
    '<p id="mw1"><a rel="mw:WikiLink" href="./A" id="mw2">a<meta typeof="mw:Skip" id="mw3"/>s</a> b</p>',
    '<p id="mw1"><meta typeof="mw:Skip" id="mw3"/><a rel="mw:WikiLink" href="./A" id="mw2">as</a> c</p>',
    '<p id="mw1"><a rel="mw:WikiLink" href="./A" id="mw2">a<meta typeof="mw:Skip" id="mw3"/>s</a> c</p>',
  ],
  [
    "new bold ends with its line",
    '<p id="mw1">a b\nc d</p>',
    '<p id="mw1">a <b>b\nc</b> d</p>',
    '<p id="mw1">a <b>b</b>\n<b>c</b> d</p>',
  ],
  [
    "a line break at a paragraph's end goes with the category behind it",
    `<p id="mw1">a\n${category(2)}</p>`,
    '<p id="mw1">a\n</p>',
    '<p id="mw1">a</p>',
  ],
  [
    "a line break at a paragraph's beginning goes with the image before it",
    '<p id="mw1"><span typeof="mw:Placeholder" id="mw2"></span>\na b</p>',
    '<p id="mw1">\na b</p>',
    '<p id="mw1">a b</p>',
  ],
  [
    "one line break goes with a category between two others",
    `<p id="mw1">${category(2)}\n${category(3)}\n${category(4)}</p>`,
    `<p id="mw1">${category(2)}\n\n${category(4)}</p>`,
    `<p id="mw1">${category(2)}\n${category(4)}</p>`,
  ],
  [
    "a line on which a category is left stays",
    `<p id="mw1">a\nb${category(2)}\nc</p>`,
    `<p id="mw1">a\n${category(2)}\n</p>`,
    `<p id="mw1">a\n${category(2)}</p>`,
  ],
  [
    "a comment that is left alone on a line stands before the next line",
    '<p id="mw1">a\nb<meta typeof="mw:Comment" id="mw2"/>\nc</p>',
    '<p id="mw1">a\n<meta typeof="mw:Comment" id="mw2"/>\nc</p>',
    '<p id="mw1">a\n<meta typeof="mw:Comment" id="mw2"/>c</p>',
  ],
  [
    "a comment that is left alone on the last line stays",
    '<p id="mw1">a\nb<meta typeof="mw:Comment" id="mw2"/></p>',
    '<p id="mw1">a\n<meta typeof="mw:Comment" id="mw2"/></p>',
    '<p id="mw1">a\n<meta typeof="mw:Comment" id="mw2"/></p>',
  ],
  [
    "blanks go with what stood beside them at the ends of lines",
    `<p id="mw1">${reference(2)} a ${reference(3)}\n${reference(4)} b</p>`,
    '<p id="mw1"> a \n b</p>',
    '<p id="mw1">a\nb</p>',
  ],
  [
    "white space of the page stays in a paragraph that was changed",
    '<p id="mw1"> a \n\n b c </p>',
    '<p id="mw1"> a \n\n b d </p>',
    '<p id="mw1"> a \n\n b d </p>',
  ],
  [
    "preformatted text keeps its line breaks",
    `<pre id="mw1">a\n${reference(2)}\nb</pre>`,
    '<pre id="mw1">a\n\nb</pre>',
    '<pre id="mw1">a\n\nb</pre>',
  ],
  [
    "a category that stands outside its paragraph goes back to its line",
    `<p id="mw1">a\n${category(2)}\nb</p>`,
    `<p id="mw1">a\n\nbc</p>${category(2)}`,
    `<p id="mw1">a\n${category(2)}\nbc</p>`,
  ],
];

for (const [name, was, now, wanted] of MENDS) {
  test(`mend: ${name}`, () => assert.equal(saved(was, now), wanted));
}

const LIST_NAMES = ["ul", "ol", "dl"];
const BLOCK_NAMES = ["p", "h2", "hr", "pre", "table", ...LIST_NAMES];
const INLINE_NAMES = ["b", "i", "a", "br", "span"];
const ANY_NAMES = [
  ...BLOCK_NAMES, ...INLINE_NAMES, "li", "dt", "dd", "tbody", "tr", "td", "th", "caption", "section", "div",
  "thead", "strong", "u",
];

/** What may be in an element, and behind which others nothing inline may be ("The page that an HTML is"). */
const HOLDS = {
  body: [...BLOCK_NAMES, "section"], section: [...BLOCK_NAMES, "section"],
  ul: ["li"], ol: ["li"], dl: ["dt", "dd"],
  table: ["caption", "tbody"], tbody: ["tr"], tr: ["td", "th"],
  ...Object.fromEntries(["li", "dt", "dd"].map((name) => [name, [...LIST_NAMES, ...INLINE_NAMES]])),
  ...Object.fromEntries(["td", "th", "caption"].map((name) => [name, [...BLOCK_NAMES, ...INLINE_NAMES]])),
};
const HOLDS_TEXT = ["p", "h2", "pre", "li", "dt", "dd", "td", "th", "caption", ...INLINE_NAMES];

/**
 * @param {Part} part
 * @returns {string[]} what isn't where it may be, in it and in what it holds
 */
function misfits(part) {
  const may = HOLDS[part.name] ?? INLINE_NAMES;
  let isBehindBlock = false;
  return part.children.flatMap((child) => {
    if (typeof child === "string") {
      return /[^ \t\n\r]/.test(child) && !HOLDS_TEXT.includes(part.name) ? [`text in ${part.name}`] : [];
    }
    const isInline = INLINE_NAMES.includes(child.name);
    const isFit = may.includes(child.name) && !(isInline && isBehindBlock);
    isBehindBlock ||= !isInline;
    return [...(isFit ? [] : [`${child.name} in ${part.name}`]), ...misfits(child)];
  });
}

/**
 * Puts something new somewhere, moves something, or takes an element out of what it holds.
 * @param {Part} body
 * @param {(below: number) => number} random
 */
function disturb(body, random) {
  const all = [body];
  for (const part of all) all.push(...part.parts);
  const holders = all.filter((part) => part.name !== "br" && part.name !== "hr");
  const part = all[random(all.length)];
  const made = (/** @type {number} */ depth) => {
    const name = ANY_NAMES[random(ANY_NAMES.length)];
    const count = name === "br" || name === "hr" ? 0 : random(4);
    const attributes = new Map(name === "a" ? [["href", "./X"]] : []);
    const children = Array.from({ length: count }, () => (depth > 2 || random(2) === 0 ? "x " : made(depth + 1)));
    return new Part(name, attributes, children);
  };
  const put = (/** @type {Part | string} */ piece, /** @type {Part[]} */ places) => {
    const { children } = places[random(places.length)];
    children.splice(random(children.length + 1), 0, piece);
  };
  const parent = all.find((holder) => holder.children.includes(part));
  const at = parent?.children.indexOf(part) ?? 0;
  const actions = [
    () => put(made(0), holders),
    () => put("typed", holders),
    () => parent?.children.splice(at, 1, ...part.children),
    () => {
      parent?.children.splice(at, 1);
      const others = parent === undefined ? [] : [body];
      for (const holder of others) others.push(...holder.parts);
      put(part, parent === undefined ? [new Part("p")] : others);
    },
    () => holders.includes(part) && part !== body && (part.name = ANY_NAMES[random(ANY_NAMES.length)]),
  ];
  actions[random(actions.length)]();
}

test("what is saved of whatever an editor left stands where it may", () => {
  const was = page(
    '<p id="mw1">a <b id="mw2">b</b></p>\n<ul id="mw3"><li id="mw4">a<ul id="mw5"><li id="mw6">b</li></ul></li></ul>' +
      '<table id="mw7"><tbody id="mw8"><tr id="mw9"><td id="mw10">a<dl id="mw11"><dt id="mw12">b</dt></dl></td>' +
      '</tr></tbody></table><h2 id="mw13">c</h2><pre id="mw14">d</pre>',
  );
  const bodyOf = (/** @type {string} */ html) => read(html).root.parts.find((part) => part.name === "body");
  assert.deepEqual(misfits(bodyOf(was)), []);
  assert.deepEqual(misfits(bodyOf(page("<p><ul>a<li><ul></ul><b></b></li></ul></p>"))).length, 3);
  for (let seed = 0; seed < 400; seed += 1) {
    const random = randomFrom(seed);
    const body = bodyOf(was);
    for (let count = random(3); count >= 0; count -= 1) disturb(body, random);
    const document = new SmallDocument();
    fill(document.body, body);
    const html = save(document.body, { original: was });
    assert.deepEqual(misfits(bodyOf(html)), [], `${seed}: ${html}`);
  }
});
