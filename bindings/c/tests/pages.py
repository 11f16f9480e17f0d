"""Pages that the example over libxml2 reads, malformed ones among them."""

# (libxml2's tree has a doctype of its own where a page has none, is read as Latin-1 where a page names no encoding, and tells `disabled` from
# `disabled=''`, which is one in the DOM)
HEAD = '<!DOCTYPE html><html><head><meta charset="utf-8"></head>'

BODIES = {
    "words": "just words & more < words",
    "nothing": "",
    "implied ends": "<ul><li>one<li>two<li>three</ul><p>first<p>second<dl><dt>t<dd>d<dt>t2</dl>",
    "without end tags": "<p>a<br>b<img src=x.png alt='a \"quoted\" one'><hr><input disabled='' value=''></p>",
    "misnested": "<p>one <b>two <i>three</b> four</i> five</p>",
    "open": "<div><span>never <em>closed",
    "stray ends": "</p></div><p>a</span>b</em></p></section>tail",
    "table": "<table><tr><td>a<td>b<tr><th>c</table>",
    "text in a table": "<table>out<tr>more<td>in</td></tr><b>bold</b></table>after",
    "attributes": "<p a=1 b='2' c=\"3\" d a=again E=Five data-x='&amp;&lt;&quot;'>x</p>",
    "references": "<p>&amp; &lt; &copy; &eacute; &#x1F600; &notareference; &nbsp;.</p>",
    "comments": "<!-- before --><p>a<!-- in - side -->b</p><!-- behind -->",
    "script": "<script>if (a < b && c > d) { x = '<p>'; }</script><style>p > b { color: red }</style><p>t",
    "two bodies": "<body class=a><p>x<body class=b id=c>y",
    "select": "<select><option>a<option selected=''>b<optgroup label=g><option>c</select>",
    "instruction": "<p>a<?php echo 1 ?>b</p>",
    "characters": "<p>\u00e9 \u4e2d \U0001f600 \u00a0 \ufffd</p><p title='\U0001f600'></p>",
    "white space": "<p> a\n b </p>\n\n<pre>\n\n x</pre> <b> </b>",
    "headings": "<h1>a<h2>b</h1>c</h2>",
    "many": "".join(f"<div class='c{at % 7}' id='n{at}'><p>Text {at} &amp; <b>more</b> text</p><br></div>" for at in range(2500)),
}

PAGES = {name: HEAD + body for name, body in BODIES.items()}
