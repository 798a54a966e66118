"""A .docx that has one of everything that scrub takes out, each with a word that stands nowhere else; and packages at random."""
import io
import random
import zipfile

W = "http://schemas.openxmlformats.org/wordprocessingml/2006/main"
R = "http://schemas.openxmlformats.org/officeDocument/2006/relationships"
TYPE = "application/vnd.openxmlformats-officedocument.wordprocessingml.%s+xml"
SPACES = 'xmlns:w="%s" xmlns:r="%s" xmlns:w14="http://schemas.microsoft.com/office/word/2010/wordml" xmlns:x="urn:other" xmlns:y="%s"' % (W, R, W)
WORD15 = 'xmlns:w15="http://schemas.microsoft.com/office/word/2012/wordml"'
# By the name of what is taken, the words that go with it.
WORDS = {
    "comment": ["qqOnText", "qqAnswer"],
    "orphan": ["qqOnNothing", "qqLinkOfOrphan", "qqPictureOfOrphan", "qqRing", 'w:id="9"', "qqIdOfOrphan"],
    "note": ["qqFootnote", "qqEndnote", "qqLinkOfNote"],
    "loose-marker": ["qqMoved"],
    "tracking": ["w:trackRevisions"],
    "protection": ["w:documentProtection", "w:writeProtection"],
    "rsid": ["0077AA11", "w:rsidR=", "w:rsids"],
    "creator": ["qqCreator"],
    "last-editor": ["qqEditor"],
    "title": [],
    "subject": ["qqSubject"],
    "manager": ["qqManager"],
    "company": ["qqCompany"],
    "person": ["qqPerson", "people.xml"],
    "custom-property": ["qqSecret"],
    "variable": ["qqVariable"],
    "mail-merge": ["qqMailSource", "w:mailMerge"],
    "template": ["qqTemplate"],
}
# What the document shows, which is kept unless it is asked for by name; and what is never taken.
SHOWN = {"title": ["<dc:title>", "TitlesOfParts"], "custom-property": ['name="qqMatter"'], "variable": ['w:name="qqShownVariable"']}
NEVER = ["qqLink2", "qqUsedNote", "qqData", "qqTheText", ">qqTitle<"]


def parts(pick=None):
    """The files of the document, by name. `pick` draws what may be otherwise."""
    body = "".join(BODY)
    if pick:
        body = "".join(paragraph(pick) for _ in range(pick.randint(1, 8))) + body
    return {
        "_rels/.rels": rels(
            ("a1", "officeDocument", "word/document.xml"), ("a2", "metadata/core-properties", "/docProps/core.xml"),
            ("a3", "extended-properties", "docProps/app.xml"), ("a4", "custom-properties", "docProps/custom.xml"),
        ),
        "word/document.xml": "<w:document %s><w:body>%s<w:sectPr w:rsidR='0077AA11' w:rsidSect=\"0077AA12\"/></w:body></w:document>" % (SPACES, body),
        "word/_rels/document.xml.rels": rels(
            ("b1", "comments", "comments.xml"), ("b2", "commentsExtended", "commentsExtended.xml"), ("b3", "commentsIds", "commentsIds.xml"),
            ("b4", "people", "people.xml"), ("b5", "footnotes", "footnotes.xml"), ("b6", "endnotes", "./endnotes.xml"),
            ("b7", "settings", "settings.xml"), ("b8", "hyperlink", "https://example.com/qqLink", True), ("b9", "customXml", "../customXml/item1.xml"),
        ),
        "word/comments.xml": "<w:comments %s>%s</w:comments>" % (SPACES, "".join(COMMENTS)),
        "word/_rels/comments.xml.rels": rels(
            ("c1", "hyperlink", "https://example.com/qqLinkOfOrphan", True), ("c2", "image", "media/qqPictureOfOrphan.png"), ("c3", "ring", "qqRing1.xml"),
        ),
        "word/media/qqPictureOfOrphan.png": "no picture",
        "word/qqRing1.xml": "<a/>",
        "word/_rels/qqRing1.xml.rels": rels(("d1", "ring", "qqRing2.xml")),
        "word/qqRing2.xml": "<a/>",
        "word/_rels/qqRing2.xml.rels": rels(("e1", "ring", "qqRing1.xml"), ("e2", "comments", "comments.xml"), ("e3", "lost", "lost.xml")),
        "word/commentsExtended.xml": "<w15:commentsEx %s>%s</w15:commentsEx>" % (WORD15, "".join('<w15:commentEx w15:paraId="%s" %s w15:done="0"/>' % one for one in SAID)),
        "word/commentsIds.xml": '<i:commentsIds xmlns:i="http://schemas.microsoft.com/office/word/2016/wordml/cid"><i:commentId i:paraId="0000000C" i:durableId="qqIdOfOrphan"/><i:commentId i:paraId="0000000A" i:durableId="11"/></i:commentsIds>',
        "word/people.xml": '<w15:people %s><w15:person w15:author="qqPerson"/></w15:people>' % WORD15,
        "word/footnotes.xml": "<w:footnotes %s>%s</w:footnotes>" % (SPACES, "".join(FOOTNOTES)),
        "word/_rels/footnotes.xml.rels": rels(("f1", "hyperlink", "https://example.com/qqLinkOfNote", True), ("f2", "hyperlink", "https://example.com/qqLink2", True)),
        "word/endnotes.xml": '<w:endnotes %s><w:endnote w:id="2"><w:p><w:r><w:t>qqEndnote</w:t></w:r></w:p></w:endnote></w:endnotes>' % SPACES,
        "word/settings.xml": "<w:settings %s>%s</w:settings>" % (SPACES, "".join(SETTINGS)),
        "word/_rels/settings.xml.rels": rels(("g1", "attachedTemplate", "file:///C:/qqTemplate.dotm", True), ("g2", "mailMergeSource", "file:///C:/qqMailSource.mdb", True)),
        "docProps/core.xml": CORE,
        "docProps/app.xml": APP,
        "docProps/custom.xml": CUSTOM,
        "customXml/item1.xml": '<people><person author="qqData"/></people>',
    }


BODY = [
    '<w:p w:rsidR="0077AA11" w:rsidRDefault = "0077AA12"><w:commentRangeStart w:id="1"/><w:r w:rsidRPr="0077AA11"><w:t>qqTheText of &amp; it</w:t></w:r>',
    '<w:commentRangeEnd w:id="1"/><w:r><w:rPr><w:rStyle w:val="CommentReference"/></w:rPr><w:commentReference w:id="1"/></w:r>',
    '<w:r><w:t>, answered</w:t><w:commentReference w:id="2"/></w:r><w:commentRangeStart w:id="3"/><w:commentRangeEnd w:id="3"/></w:p>',
    '<w:p><w:r><w:commentReference w:id="9"/></w:r><w:r><w:t>a note</w:t></w:r><w:r><w:footnoteReference w:id="2"/></w:r></w:p>',
    '<w:p><w:moveFromRangeStart w:id="50" w:author="qqMoved" w:name="m"/><w:moveFromRangeEnd w:id="50"/><w:hyperlink r:id="b8"><w:r><w:t>link</w:t></w:r></w:hyperlink></w:p>',
    '<w:p><w:r><w:fldChar w:fldCharType="begin"/></w:r><w:r><w:instrText> DOCPRO</w:instrText></w:r><w:r><w:instrText>PERTY "qqMatter"</w:instrText></w:r>',
    '<w:r><w:fldChar w:fldCharType="separate"/></w:r><w:r><w:t>M-1</w:t></w:r><w:r><w:fldChar w:fldCharType="end"/></w:r></w:p>',
    '<w:p><w:fldSimple w:instr="docvariable  qqShownVariable"><w:r><w:t>v</w:t></w:r></w:fldSimple></w:p>',
    '<w:p><w:sdt><w:sdtPr><w:dataBinding w:prefixMappings="xmlns:ns0=\'http://purl.org/dc/elements/1.1/\' '
    "xmlns:ns1='http://schemas.openxmlformats.org/package/2006/metadata/core-properties'\" "
    'w:xpath="/ns1:coreProperties[1]/ns0:title[1]" w:storeItemID="{6C3C8BC8-F283-45AE-878A-BAB7291924A1}"/><w:text/></w:sdtPr>',
    "<w:sdtContent><w:r><w:t>qqTitle</w:t></w:r></w:sdtContent></w:sdt></w:p>",
]
COMMENTS = [
    '<w:comment w:id="1" w:author="Ann"><w:p w14:paraId="0000000A"><w:r><w:annotationRef/></w:r><w:r><w:t>qqOnText</w:t></w:r></w:p></w:comment>',
    '<w:comment w:id="2" w:author="Bob"><w:p w14:paraId="0000000B"><w:r><w:t>qqAnswer</w:t></w:r></w:p></w:comment>',
    '<w:comment w:id="3" w:author="Cara"><w:p w14:paraId="0000000C"><w:r><w:t>qqOnNothing</w:t></w:r></w:p></w:comment>',
    '<w:comment w:id="4"><w:p w:rsidR="0077AA11"><w:hyperlink r:id="c1"><w:r><w:t a=">">b</w:t></w:r></w:hyperlink><w:r><w:pict r:id="c2" r:x="c3"/></w:r></w:p></w:comment>',
]
SAID = [("0000000A", ""), ("0000000B", 'w15:paraIdParent="0000000C"'), ("0000000C", 'w15:paraIdParent="0000000A"')]
FOOTNOTES = [
    '<w:footnote w:type="separator" w:id="0"><w:p/></w:footnote><w:footnote w:id="2"><w:p><w:hyperlink r:id="f2"><w:r><w:t>qqUsedNote</w:t></w:r></w:hyperlink></w:p></w:footnote>',
    '<w:footnote w:id="3"><w:p><w:hyperlink r:id="f1"><w:r><w:t>qqFootnote</w:t></w:r></w:hyperlink><w:hyperlink r:id="f2"/></w:p></w:footnote>',
]
SETTINGS = [
    '<w:writeProtection w:recommended="1"/><w:attachedTemplate r:id="g1"/><w:trackRevisions/>',
    '<w:mailMerge><w:mainDocumentType w:val="catalog"/><w:dataType w:val="native"/><w:dataSource r:id="g2"/></w:mailMerge>',
    '<w:documentProtection w:edit="comments" w:enforcement="1"/><w:footnotePr><w:footnote w:id="0"/></w:footnotePr>',
    '<w:rsids><w:rsidRoot w:val="0077AA11"/><w:rsid w:val="0077AA12"/></w:rsids>',
    '<w:docVars><w:docVar w:name="qqVariable" w:val="1"/><w:docVar w:name="qqShownVariable" w:val="v"/></w:docVars>',
]
CORE = (
    '<cp:coreProperties xmlns:cp="http://schemas.openxmlformats.org/package/2006/metadata/core-properties" xmlns:dc="http://purl.org/dc/elements/1.1/">'
    "<dc:title>qqTitle</dc:title><dc:subject>qqSubject</dc:subject><dc:creator>qqCreator</dc:creator><cp:lastModifiedBy>qqEditor</cp:lastModifiedBy></cp:coreProperties>"
)
APP = (
    '<Properties xmlns="http://schemas.openxmlformats.org/officeDocument/2006/extended-properties"><Template>qqTemplate.dotm</Template>'
    "<Manager>qqManager</Manager><Company>qqCompany</Company><TitlesOfParts>qqTitle</TitlesOfParts></Properties>"
)
CUSTOM = (
    '<Properties xmlns="http://schemas.openxmlformats.org/officeDocument/2006/custom-properties" xmlns:v="http://schemas.openxmlformats.org/officeDocument/2006/docPropsVTypes">'
    '<property fmtid="{D5CDD505-2E9C-101B-9397-08002B2CF9AE}" pid="2" name="qqMatter"><v:lpwstr>M-1</v:lpwstr></property>'
    '<property fmtid="{D5CDD505-2E9C-101B-9397-08002B2CF9AE}" pid="3" name="qqSecretName"><v:lpwstr>qqSecret</v:lpwstr></property></Properties>'
)
TYPES = {
    "word/document.xml": TYPE % "document.main", "word/comments.xml": TYPE % "comments", "word/commentsExtended.xml": TYPE % "commentsExtended",
    "word/commentsIds.xml": TYPE % "commentsIds", "word/people.xml": TYPE % "people", "word/footnotes.xml": TYPE % "footnotes",
    "word/endnotes.xml": TYPE % "endnotes", "word/settings.xml": TYPE % "settings", "docProps/core.xml": "application/vnd.openxmlformats-package.core-properties+xml",
    "docProps/app.xml": "application/vnd.openxmlformats-officedocument.extended-properties+xml",
    "docProps/custom.xml": "application/vnd.openxmlformats-officedocument.custom-properties+xml",
}


def rels(*listed):
    """A part of relationships: id, the end of the type, target, and whether that is outside."""
    form = '<Relationship Id="%s" Type="http://schemas.openxmlformats.org/officeDocument/2006/relationships/%s" Target="%s"%s/>'
    made = "".join(form % (*one[:3], ' TargetMode="External"' if one[3:] else "") for one in listed)
    return '<Relationships xmlns="http://schemas.openxmlformats.org/package/2006/relationships">%s</Relationships>' % made


def docx_of(files):
    """The .docx with these files."""
    out = io.BytesIO()
    overrides = "".join('<Override PartName="/%s" ContentType="%s"/>' % item for item in TYPES.items() if item[0] in files)
    types = '<Default Extension="rels" ContentType="application/vnd.openxmlformats-package.relationships+xml"/><Default Extension="xml" ContentType="application/xml"/><Default Extension="png" ContentType="image/png"/>'
    with zipfile.ZipFile(out, "w", zipfile.ZIP_DEFLATED) as archive:
        archive.writestr("[Content_Types].xml", '<Types xmlns="http://schemas.openxmlformats.org/package/2006/content-types">%s%s</Types>' % (types, overrides))
        for name, text in files.items():
            archive.writestr(name, text)
    return out.getvalue()


def paragraph(pick):
    """A paragraph with marks at random: of comments that are or aren't there, of sittings, of notes, with other prefixes and quotes."""
    quote = pick.choice("\"'")
    sitting = lambda: pick.choice(["", " w:rsidR=%s0077AA11%s" % (quote, quote), '\n  w:rsidRPr="0077AA12"\tw:rsidDel="0077AA13" ', ' a="w:rsidR=&quot;0077AA14&quot; &gt;" b=\'">\''])
    number = lambda: pick.choice(["1", "2", "3", "4", "9", "12", "&#49;"])
    pieces = {
        "text": lambda: "<w:r%s><w:t>%s</w:t></w:r>" % (sitting(), pick.choice(["a", "&lt;b>", "<![CDATA[<w:p w:rsidR=\"\">]]>", "<!-- <w:trackRevisions/> -->c"])),
        "mark": lambda: "<w:commentRange%s w:id='%s'/>" % (pick.choice(["Start", "End"]), number()),
        "reference": lambda: "<w:r>%s<w:commentReference w:id='%s'></w:commentReference>%s</w:r>" % (pick.choice(["", "<w:rPr/>"]), number(), pick.choice(["", "<w:t>d</w:t>", "<w:tab/>"])),
        "note": lambda: '<w:r><w:%sReference w:id="%s"/></w:r>' % (pick.choice(["footnote", "endnote"]), number()),
        "field": lambda: '<w:fldSimple w:instr="%s"><w:r><w:t>e</w:t></w:r></w:fldSimple>' % pick.choice(["AUTHOR", " title ", "DOCPROPERTY Company", "INFO Subject", "DOCPROPERTY", "PAGE", "TEMPLATE"]),
    }
    inside = "".join(pieces[pick.choice(list(pieces))]() for _ in range(pick.randint(0, 6)))
    other = pick.choice(["", "", '<x:p x:rsidR="0077AA11"><x:r/></x:p>', '<y:p y:rsidR="0077AA11"><y:r y:rsidR=""/></y:p>'])
    return "<w:p%s>%s</w:p>%s" % (sitting(), inside, other)


def drawn(number):
    """A .docx at random, by its number: parts are missing in some, and ids come twice."""
    pick = random.Random(number)
    files = parts(pick)
    for name in list(files):
        if name not in ("word/document.xml", "_rels/.rels") and pick.random() < 0.08:
            del files[name]
    if pick.random() < 0.3 and "word/comments.xml" in files:
        files["word/comments.xml"] = files["word/comments.xml"].replace('w:id="3"', pick.choice(['w:id="1"', "", 'w:id="2"']))
    return docx_of(files)
