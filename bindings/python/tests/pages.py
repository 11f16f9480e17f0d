"""Documents for the tests of parsing and writing, of their own making: plain ones and malformed ones."""

# Pages. Written and parsed again, each gives the same tree.
PAGES = {
    "small": "<!DOCTYPE html><html><head><title>A title</title></head><body><p>Some text.</p></body></html>",
    "no tags": "just words & more < words",
    "empty": "",
    "ids": '<!DOCTYPE html PUBLIC "-//W3C//DTD XHTML 1.0 Strict//EN" "http://www.w3.org/TR/xhtml1/DTD/xhtml1-strict.dtd"><p>x',
    "implied ends": "<ul><li>one<li>two<li>three</ul><p>first<p>second<dl><dt>t<dd>d<dt>t2</dl>",
    "void": "<p>a<br>b<img src=x.png alt='a \"quoted\" one'><hr><input disabled value=''></p>",
    "misnested": "<p>one <b>two <i>three</b> four</i> five</p>",
    "open": "<div><span>never <em>closed",
    "stray ends": "</p></div><p>a</span>b</em></p></section>tail",
    "table": "<table><tr><td>a<td>b<tr><th>c</table>",
    "fostered": "<table>out<tr>more<td>in</td></tr><b>bold</b></table>after",
    "attributes": "<p a=1 b='2' c=\"3\" d a=again E=Five data-x='&amp;&lt;&quot;'>x</p>",
    "references": "<p>&amp; &lt; &copy; &eacute; &#x1F600; &#0; &notareference; &nbsp;.</p>",
    "comments": "<!-- before --><!DOCTYPE html><!-- between --><p>a<!-- in --- side -->b</p><!-- open",
    "script": "<script>if (a < b && c > d) { x = '<p>'; }</script><style>p > b { color: red }</style><p>t",
    "svg": '<p>t<svg viewBox="0 0 1 1" xlink:href="#a"><foreignObject><p>h</p></foreignObject><path d=""/></svg>u',
    "math": "<math><mi>x</mi><annotation-xml encoding='text/html'><p>q</p></annotation-xml></math>",
    "two bodies": "<html lang=en><body class=a><p>x<body class=b id=c><html title=t>y",
    "select": "<select><option>a<option selected>b<optgroup label=g><option>c</select>",
    "pi": "<?xml version='1.0'?><p>a<?php echo 1 ?>b</p>",
    "characters": "<p>\u00e9 \u4e2d \U0001f600 \u00a0 \ufffd</p><p title='\U0001f600'></p>",
    "nested lists": "<ol><li>a<ul><li>b</ul><li>c</ol>",
    "headings": "<h1>a<h2>b</h1>c</h2>",
    "template": "<template><p>inside</p></template><p>outside",
    "frames": "<html><frameset cols='1,2'><frame src=a><frame src=b></frameset></html>",
    "formatting": "<b>" * 5 + "deep" + "</b>" * 3 + "<p>out</p>",
}

# Parts of pages, by the element that they stand in.
PARTS = {
    "div": ["<p>a<p>b", "text <b>bold</b> &amp; more", "</div>x", "<li>a<li>b"],
    "tr": ["<td>a<td>b", "x<td>y"],
    "select": ["<option>a<option>b"],
    "title": ["a <b> c"],
}

XML = {
    "small": "<a/>",
    "text": "<a>x &amp; y &lt; z &#228; \U0001f600</a>",
    "attributes": "<a one='1' two=\"a 'b' &quot;c&quot;\" three='&#9;&#10;&#13; x'/>",
    "mixed": "<p>one <b>two</b> three <i><b/></i> four</p>",
    "declared": "<?xml version='1.0' encoding='UTF-8'?><a>t</a>",
    "doctype": "<!DOCTYPE note SYSTEM 'note.dtd'><note>t</note>",
    "ids": '<!DOCTYPE html PUBLIC "-//W3C//DTD XHTML 1.0 Strict//EN" "http://www.w3.org/TR/xhtml1/DTD/xhtml1-strict.dtd"><html/>',
    "internal": "<!DOCTYPE a [<!ENTITY e 'put in'><!-- within --><?within it?>]><a>&e; and &e;</a>",
    "subset": """<!DOCTYPE a [<!ENTITY e '>'><!ENTITY f "<!-- no -->]>"><!-- a > b --><?within >?><!ATTLIST a c (x|y) #IMPLIED>
        <!ELEMENT a ANY><!NOTATION n SYSTEM 'x>y'><!ENTITY % p '<!ELEMENT b ANY><!-- in it -->'>%p;<!-- last --> ] ><!-- behind --><a>&e;</a><?end?>""",
    "empty subset": "<!-- a --><!DOCTYPE a SYSTEM 'b>c' []><!-- behind --><?behind?><a/>",
    "comments": "<!-- a --><a><!-- b --></a><!-- c -->",
    "instructions": "<?one two three?><a><?four?>x</a><?five six?>",
    "sections": "<a>x<![CDATA[ <raw> & ]]>y</a>",
    "prefixes": "<x:a xmlns:x='urn:x' xmlns='urn:d' x:b='1' c='2'><d/><x:e xmlns:x='urn:y'/></x:a>",
    "white": "<a>\n  <b>\t</b>\n</a>",
    "lines": "<a>one&#13;two\nthree</a>",
    "names": "<\u00e9l\u00e9ment \u4e2d='1' _a.b-c='2'/>",
    "nested": "<!DOCTYPE a [<!ENTITY i 'in'><!ENTITY o 'out &i; side'>]><a b='&o;'>&o;</a>",
    "empty ones": "<a b=''><c></c><d/>\n</a>",
    "marks": "<a b=\"'\" c='\"' d='&lt;&gt;'>]]&gt; ' \"</a>",
    "language": "<a xml:lang='en' xml:space='preserve'> x </a>",
    "references": "<a>&#x1F600;&#xE9;&#x2028;&#xA0;&amp;amp;</a>",
    "around": "<?one?><!-- a --><!DOCTYPE a><!-- b --><?two x?><a/><!-- c --><?three?>",
    "long": f"<a b='{'x' * 70000}'>{'y&amp;' * 30000}</a>",
    "deep": "<a>" * 500 + "x" + "</a>" * 500,
    "list": f"<a>{'<b/>' * 300}{'<c>t</c>u' * 300}</a>",
}

# What expat refuses.
BROKEN = [
    *("", "<a>", "<a></b>", "<a b=1/>", "<a>&none;</a>", "text", "<a/><b/>", "<a b='1' b='2'/>", "<a>\x01</a>", "<a b='<'/>", "<a>]]></a>"),
    *("<1/>", "<a/>x", "<a", "<a>&#0;</a>", "<a><!-- -- --></a>", "<a><?xml x?></a>", "<!DOCTYPE a><!DOCTYPE a><a/>", "<a b>"),
]


def large(count=10000):
    """Returns a page with about ``count`` elements."""
    rows = "".join(f"<div class='c{at % 7}' id='n{at}'><p>Text {at} &amp; <b>more</b> text</p><br></div>" for at in range(count // 4))
    return f"<!DOCTYPE html><html><head><title>t</title></head><body>{rows}</body></html>"
