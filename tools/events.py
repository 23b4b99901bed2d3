"""Documents of EPCIS with any number of events, for a check and a benchmark.

Of ten events seven are object, two aggregation and one transformation events, with 65 identifiers together.
"""
import random
from typing import Iterator

from tools.measures import check_digit

FORMS, FORMATS = ("uri", "link"), ("json", "xml")
SEED, PREFIX, STEM = 7, "0614141", "https://id.gs1.org"
HEADS = {
    "json": '{"@context":["https://ref.gs1.org/standards/epcis/2.0.0/epcis-context.jsonld"],"type":"EPCISDocument","schemaVersion":"2.0",'
    '"creationDate":"2026-01-01T00:00:00Z","epcisBody":{"eventList":[\n',
    "xml": '<?xml version="1.0" encoding="UTF-8"?>\n<epcis:EPCISDocument xmlns:epcis="urn:epcglobal:epcis:xsd:1" schemaVersion="1.2" '
    'creationDate="2026-01-01T00:00:00Z"><EPCISBody><EventList>\n',
}
TAILS = {"json": "]}}\n", "xml": "</EventList></EPCISBody></epcis:EPCISDocument>\n"}


def with_check(digits: str) -> str:
    """Returns digits with their check digit."""
    return f"{digits}{check_digit(digits)}"


class Makes:
    """Makes identifiers, alike in both forms for one seed."""

    def __init__(self, form: str) -> None:
        self.is_uri, self.random = form == "uri", random.Random(SEED)

    def trade_item(self) -> str:
        """A trade item with a serial number."""
        item, serial = self.random.randrange(500), self.random.randrange(10**9)
        return f"urn:epc:id:sgtin:{PREFIX}.1{item:05}.{serial}" if self.is_uri else f"{STEM}/01/{with_check(f'1{PREFIX}{item:05}')}/21/{serial}"

    def lot(self) -> str:
        """A lot of a trade item."""
        item, lot = self.random.randrange(500), self.random.randrange(10**4)
        return f"urn:epc:class:lgtin:{PREFIX}.1{item:05}.L{lot}" if self.is_uri else f"{STEM}/01/{with_check(f'1{PREFIX}{item:05}')}/10/L{lot}"

    def pallet(self) -> str:
        """A logistic unit."""
        serial = f"{self.random.randrange(10**9):09}"
        return f"urn:epc:id:sscc:{PREFIX}.1{serial}" if self.is_uri else f"{STEM}/00/{with_check(f'1{PREFIX}{serial}')}"

    def place(self) -> str:
        """A location, with an extension or none."""
        location, extension = f"{self.random.randrange(200):05}", self.random.randrange(3)
        link = f"{STEM}/414/{with_check(PREFIX + location)}" + (f"/254/{extension}" if extension else "")
        return f"urn:epc:id:sgln:{PREFIX}.{location}.{extension}" if self.is_uri else link


def json_event(makes: Makes, number: int, padding: str) -> str:
    """Returns an event in JSON-LD."""
    when = f'"eventTime":"2026-01-01T{number // 3600 % 24:02}:{number // 60 % 60:02}:{number % 60:02}.000Z","eventTimeZoneOffset":"+00:00"'
    where = f'"readPoint":{{"id":"{makes.place()}"}},"bizLocation":{{"id":"{makes.place()}"}}' + (f',"example:note":"{padding}"' if padding else "")
    if number % 10 < 7:
        order = f'"bizTransactionList":[{{"type":"po","bizTransaction":"urn:epcglobal:cbv:bt:0614141000012:{number}"}}]'
        items = f'"epcList":["{makes.trade_item()}","{makes.trade_item()}"]'
        return f'{{"type":"ObjectEvent",{when},{items},"action":"OBSERVE","bizStep":"shipping","disposition":"in_transit",{where},{order}}}'
    if number % 10 < 9:
        items = f'"parentID":"{makes.pallet()}","childEPCs":[' + ",".join(f'"{makes.trade_item()}"' for _ in range(10)) + "]"
        return f'{{"type":"AggregationEvent",{when},{items},"action":"ADD","bizStep":"packing","disposition":"in_progress",{where}}}'
    items = f'"inputQuantityList":[{{"epcClass":"{makes.lot()}","quantity":10.50,"uom":"KGM"}}],"outputEPCList":["{makes.trade_item()}"]'
    return f'{{"type":"TransformationEvent",{when},{items},"bizStep":"commissioning",{where}}}'


def xml_event(makes: Makes, number: int, padding: str) -> str:
    """Returns an event in XML."""
    when = f"<eventTime>2026-01-01T{number // 3600 % 24:02}:{number // 60 % 60:02}:{number % 60:02}.000Z</eventTime>"
    when += "<eventTimeZoneOffset>+00:00</eventTimeZoneOffset>"
    where = f"<readPoint><id>{makes.place()}</id></readPoint><bizLocation><id>{makes.place()}</id></bizLocation>"
    where += f"<note>{padding}</note>" if padding else ""
    step = "<bizStep>urn:epcglobal:cbv:bizstep:shipping</bizStep><disposition>urn:epcglobal:cbv:disp:in_transit</disposition>"
    if number % 10 < 7:
        order = f'<bizTransaction type="urn:epcglobal:cbv:btt:po">urn:epcglobal:cbv:bt:0614141000012:{number}</bizTransaction>'
        items = f"<epcList><epc>{makes.trade_item()}</epc><epc>{makes.trade_item()}</epc></epcList>"
        return f"<ObjectEvent>{when}{items}<action>OBSERVE</action>{step}{where}<bizTransactionList>{order}</bizTransactionList></ObjectEvent>"
    if number % 10 < 9:
        items = f"<parentID>{makes.pallet()}</parentID><childEPCs>" + "".join(f"<epc>{makes.trade_item()}</epc>" for _ in range(10)) + "</childEPCs>"
        return f"<AggregationEvent>{when}{items}<action>ADD</action>{step}{where}</AggregationEvent>"
    items = f"<inputQuantityList><quantityElement><epcClass>{makes.lot()}</epcClass><quantity>10.50</quantity><uom>KGM</uom></quantityElement>"
    items += f"</inputQuantityList><outputEPCList><epc>{makes.trade_item()}</epc></outputEPCList>"
    return f"<extension><TransformationEvent>{when}{items}{step}{where}</TransformationEvent></extension>"


def document(kind: str, form: str, events: int, padding: str = "") -> Iterator[str]:
    """Yields a document piece by piece, with so many events. `kind` is a format, and `padding` a text in each event."""
    makes, event = Makes(form), {"json": json_event, "xml": xml_event}[kind]
    yield HEADS[kind]
    for number in range(events):
        yield event(makes, number, padding) + (",\n" if kind == "json" and number < events - 1 else "\n")
    yield TAILS[kind]
