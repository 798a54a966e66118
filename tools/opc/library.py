"""Archives of any form, read by the library."""
import copy
import io
import zipfile
import zlib

from opc.xml import NotOfTheForm


def content_of(archive, info):
    """The bytes of a file of an archive. It is taken packed, so that no more is unpacked than the archive tells."""
    packed = copy.copy(info)
    packed.compress_type, packed.file_size, packed.CRC = zipfile.ZIP_STORED, info.compress_size, None
    data = archive.read(packed)
    if len(data) != info.compress_size:
        raise zipfile.BadZipFile("a part is cut off")
    if info.compress_type not in (zipfile.ZIP_STORED, zipfile.ZIP_DEFLATED):
        raise zipfile.BadZipFile("That compression method is not supported")
    if info.compress_type == zipfile.ZIP_DEFLATED:
        inflate = zlib.decompressobj(-15)
        data = inflate.decompress(data, info.file_size + 1)
        if len(data) > info.file_size:
            raise zipfile.BadZipFile("a part unpacks to more than it says")
        if not inflate.eof or inflate.unused_data:
            raise zipfile.BadZipFile("a part is damaged")
    if len(data) != info.file_size or zlib.crc32(data) != info.CRC:
        raise zipfile.BadZipFile("Bad CRC-32 for file %r" % info.filename)
    return data


def items_of_any(data, limit):
    """The files of an archive by name, of so many bytes at most."""
    try:
        with zipfile.ZipFile(io.BytesIO(data)) as archive:
            infos = [info for info in archive.infolist() if not info.is_dir()]
            if sum(info.file_size for info in infos) > limit:
                raise NotOfTheForm("it unpacks to more than %d bytes" % limit)
            items = {info.filename: content_of(archive, info) for info in infos}
    except NotOfTheForm:
        raise
    except Exception as error:
        # A damaged archive can make the library raise nearly anything: zlib.error, struct.error, UnicodeDecodeError ..
        raise NotOfTheForm("it is no ZIP package (%s)" % (str(error) or type(error).__name__)) from None
    if len(items) < len(infos):
        raise NotOfTheForm("two of its parts have one name")
    return items
