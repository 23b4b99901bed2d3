"""Workbooks that tests compose, with what spreadsheet programs write and what they do not."""
import io
import posixpath
import zipfile
from typing import Mapping, Optional, Sequence, Union

SCHEMAS, MEDIA = "http://schemas.openxmlformats.org", "application/vnd.openxmlformats-officedocument.spreadsheetml"
PACKAGE, TYPE, MAIN = f"{SCHEMAS}/package/2006", f"{SCHEMAS}/officeDocument/2006/relationships", f"{SCHEMAS}/spreadsheetml/2006/main"
# the style of a cell that is a date: its format is number 14 (ISO/IEC 29500-1, section 18.8.30)
DATED = 1
STYLES = f'<styleSheet xmlns="{MAIN}"><cellXfs><xf numFmtId="0"/><xf numFmtId="14"/></cellXfs></styleSheet>'


def text(value: str) -> str:
    """Returns a cell with a text."""
    return f'<c t="inlineStr"><is><t>{value}</t></is></c>'


def number(value: str) -> str:
    """Returns a cell with a number."""
    return f"<c><v>{value}</v></c>"


def row(*cells: str, place: Optional[int] = None) -> str:
    """Returns a row of cells, with its number if it is named."""
    named = "" if place is None else f' r="{place}"'
    return f"<row{named}>{''.join(cells)}</row>"


def parts_of(sheets: Mapping[str, Union[str, Sequence[str]]], folder: str = "worksheets", shared: Optional[str] = None) -> dict[str, str]:
    """Returns the parts of a workbook: each sheet has rows in XML, and its part stands in this folder of xl/."""
    named = "".join(f'<sheet name="{name}" sheetId="{place}" r:id="r{place}"/>' for place, name in enumerate(sheets, 1))
    linked = "".join(f'<Relationship Id="r{place}" Type="{TYPE}/worksheet" Target="{folder}/sheet{place}.xml"/>' for place, _ in enumerate(sheets, 1))
    linked += f'<Relationship Id="s" Type="{TYPE}/styles" Target="styles.xml"/>'
    linked += f'<Relationship Id="t" Type="{TYPE}/sharedStrings" Target="/xl/texts.xml"/>' if shared is not None else ""
    parts = {
        "[Content_Types].xml": f'<Types xmlns="{PACKAGE}/content-types"><Default Extension="xml" ContentType="application/xml"/>'
        f'<Override PartName="/xl/workbook.xml" ContentType="{MEDIA}.sheet.main+xml"/></Types>',
        "_rels/.rels": f'<Relationships xmlns="{PACKAGE}/relationships">'
        f'<Relationship Id="r" Type="{TYPE}/officeDocument" Target="xl/workbook.xml"/></Relationships>',
        "xl/workbook.xml": f'<workbook xmlns="{MAIN}" xmlns:r="{TYPE}"><sheets>{named}</sheets></workbook>',
        "xl/_rels/workbook.xml.rels": f'<Relationships xmlns="{PACKAGE}/relationships">{linked}</Relationships>',
        "xl/styles.xml": STYLES,
    }
    if shared is not None:
        parts["xl/texts.xml"] = f'<sst xmlns="{MAIN}">{shared}</sst>'
    for place, rows in enumerate(sheets.values(), 1):
        whole = rows if isinstance(rows, str) else "".join(rows)
        # (other programs write dimensions that are wrong)
        parts[posixpath.normpath(f"xl/{folder}/sheet{place}.xml")] = f'<worksheet xmlns="{MAIN}"><dimension ref="A1"/><sheetData>{whole}</sheetData></worksheet>'
    return parts


def packed(parts: Mapping[str, str]) -> bytes:
    """Returns the archive of parts."""
    into = io.BytesIO()
    with zipfile.ZipFile(into, "w", zipfile.ZIP_DEFLATED) as archive:
        for name, content in parts.items():
            archive.writestr(name, content)
    return into.getvalue()


def workbook(sheets: Mapping[str, Union[str, Sequence[str]]], folder: str = "worksheets", shared: Optional[str] = None) -> bytes:
    """Returns a workbook of sheets, each a name and its rows in XML."""
    return packed(parts_of(sheets, folder, shared))
