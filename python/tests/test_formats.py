"""Files in other formats and encodings than they seem to have: each is told as such, in one line."""

import gzip
import io
import lzma
import zipfile

import pytest

import bsi


def read(text, **more):
    return bsi.read_csv(io.BytesIO(text) if isinstance(text, bytes) else io.StringIO(text), **more)


def workbook(*names):
    file = io.BytesIO()
    with zipfile.ZipFile(file, "w") as packed:
        for name in names:
            packed.writestr(name, "x" * 100)
    return file.getvalue()


@pytest.mark.parametrize(
    "data, why",
    [
        (workbook("[Content_Types].xml", "xl/workbook.xml"), "an Excel workbook .*; save it as CSV, or give what pandas.read_excel"),
        (workbook("mimetype-of-opendocument.spreadsheet"), "a workbook of LibreOffice"),
        (bytes.fromhex("d0cf11e0a1b11ae1") + bytes(500), r"an Excel workbook \(.xls\)"),
        (b"PAR1\x15\x04\x15\x10" + bytes(90), "a Parquet file; give what pandas.read_parquet reads to Index.from_frame"),
        (workbook("rows.csv"), "packed by zip; give it a name that ends in .zip"),
        (gzip.compress(b"a,b\n1,2\n"), "packed by gzip; give it a name that ends in .gz"),
        (lzma.compress(b"a,b\n1,2\n"), "packed by xz; .*.xz"),
        ("a,b\n1,2\n".encode("utf-16-le"), "UTF-16 text without a mark; encoding='utf-16-le' reads it"),
        ("größe,Ж\n1,2\n".encode("utf-16-be"), "UTF-16 text without a mark; encoding='utf-16-be' reads it"),
    ],
)
def test_files_of_other_formats(tmp_path, data, why):
    path = tmp_path / "rows.csv"
    path.write_bytes(data)
    for given in (path, io.BytesIO(data)):
        for encoding in (None, "latin-1", "utf-8"):
            with pytest.raises(bsi.BadColumns, match=f"(rows.csv|the BytesIO): it is {why}") as refused:
                bsi.read_csv(given, encoding=encoding)
            assert "\n" not in str(refused.value)
            getattr(given, "seek", lambda place: None)(0)


def test_texts_that_begin_as_other_formats_do():
    for begin in ("PAR1", "PK", "BZh9", "BZh"):
        assert read(f"{begin},n\nx,1\n".encode()).columns == [begin, "n"]
    text = "größe,n\nx,1\n"
    for encoding in ("utf-16-le", "utf-16-be"):
        assert read(text.encode(encoding), encoding=encoding).columns == ["größe", "n"]
    for encoding in ("cp1252", "utf-8"):
        with pytest.raises(bsi.BadColumns, match=f"it is UTF-16 text, and not {encoding}; leave encoding= out"):
            read(text.encode("utf-16"), encoding=encoding)
    assert read(text.encode("utf-16")).columns == ["größe", "n"]
    assert read("a,b\nx\0y,1\n".encode()).least("a") == "x\0y"
