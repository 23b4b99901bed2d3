"""Where the identifiers of an EPCIS document stand: the members of JSON-LD and the elements of XML (EPCIS 1.2 and 2.0, sections 7 and 9).

A tree has the names on the way to an identifier. Its leaf is the field that a rejection names. What is not in the tree stays as it is:
extensions, ILMD, event hashes, dispositions.
"""
from __future__ import annotations

from typing import Dict, List, Union

from .parts import STRING, Found, style_of

Tree = Dict[str, "Node"]
Node = Union[str, Tree]

EPCS = ("epcList", "childEPCs", "inputEPCList", "outputEPCList")
QUANTITIES = ("quantityList", "childQuantityList", "inputQuantityList", "outputQuantityList")
PAIRS = {"bizTransaction": "bizTransactionList", "source": "sourceList", "destination": "destinationList"}
SINGLE = ("parentID", "transformationID")
PLACES = ("readPoint", "bizLocation")
OF_SENSORS = ("deviceID", "dataProcessingMethod", "bizRules")
EVENT_TYPES = ("ObjectEvent", "AggregationEvent", "QuantityEvent", "TransactionEvent", "TransformationEvent", "AssociationEvent")
VOCABULARY = "vocabularyElementList"
# the members of a document's root of which one has to be there
TOPS = ("epcisBody", "epcisHeader", "queryResults", "resultsBody")
# the namespaces of SOAP 1.1 and 1.2, in whose body the answer to a query comes
SOAP = ("http://schemas.xmlsoap.org/soap/envelope/", "http://www.w3.org/2003/05/soap-envelope")


def _leaves(names: "tuple[str, ...]") -> Tree:
    return {name: name for name in names}


def _json_event() -> Tree:
    """Returns the tree of an event in JSON-LD. Arrays are not part of a tree."""
    sensor: Tree = {"sensorMetadata": _leaves(OF_SENSORS), "sensorReport": _leaves(OF_SENSORS)}
    tree: Tree = {**_leaves(EPCS), **_leaves(SINGLE), "sensorElementList": sensor}
    tree.update({name: {"epcClass": name} for name in QUANTITIES})
    tree.update({name: {"id": name} for name in PLACES})
    tree.update({field: {name: field} for name, field in PAIRS.items()})
    return tree


def _json_document(event: Tree, events: Tree) -> Tree:
    """Returns the tree of a document in JSON-LD, which may be a bare event."""
    vocabularies: Tree = {"vocabularyList": {VOCABULARY: {"id": VOCABULARY, "children": VOCABULARY}}}
    results: Tree = {"eventList": events, **vocabularies}
    queried: Tree = {"queryResults": {"resultsBody": results}, "resultsBody": results}
    return {**event, "epcisHeader": {"epcisMasterData": vocabularies}, "epcisBody": {**results, **queried}, **queried}


def _xml_event() -> Tree:
    """Returns the tree of an event in XML, where an attribute's name begins with @. Version 1 has extensions in extensions."""
    attributes: Tree = {f"@{name}": name for name in OF_SENSORS}
    sensor: Tree = {"sensorElement": {"sensorMetadata": attributes, "sensorReport": attributes}}
    tree: Tree = {**_leaves(SINGLE), "epcClass": "epcClass", "sensorElementList": sensor}
    tree.update({name: {"epc": name} for name in EPCS})
    tree.update({name: {"quantityElement": {"epcClass": name}} for name in QUANTITIES})
    tree.update({name: {"id": name} for name in PLACES})
    tree.update({field: {name: field} for name, field in PAIRS.items()})
    tree["extension"] = tree
    return tree


def _xml_document(events: Tree) -> Tree:
    """Returns the tree of a document in XML."""
    element: Tree = {"@id": VOCABULARY, "children": {"id": VOCABULARY}}
    vocabularies: Tree = {"VocabularyList": {"Vocabulary": {"VocabularyElementList": {"VocabularyElement": element}}}}
    header: Tree = {"EPCISMasterData": vocabularies}
    header["extension"] = header
    results: Tree = {"EventList": events, **vocabularies}
    queried: Tree = {"QueryResults": {"resultsBody": results}}
    parts: Tree = {"EPCISHeader": header, "EPCISBody": {**results, **queried}}
    roots: Tree = {**{name: parts for name in ("EPCISDocument", "EPCISQueryDocument", "EPCISMasterDataDocument")}, **queried}
    return {**roots, **{f"{soap} Envelope": {f"{soap} Body": roots} for soap in SOAP}}


JSON_EVENT = _json_event()
JSON_EVENTS: Tree = dict(JSON_EVENT)
JSON_DOCUMENT = _json_document(JSON_EVENT, JSON_EVENTS)
XML_EVENT = _xml_event()
XML_EVENTS: Tree = {name: XML_EVENT for name in EVENT_TYPES}
XML_EVENTS["extension"] = XML_EVENTS
XML_DOCUMENT = _xml_document(XML_EVENTS)


def json_identifiers(value: object, node: Node, number: int, found: List[Found]) -> None:
    """Appends each identifier of a value in the event of a number, in the order of the document."""
    if value.__class__ is list:
        for item in value:  # type: ignore[attr-defined]
            if item.__class__ is str and node.__class__ is str:
                found.append((item, number, node, style_of(item, STRING)))  # type: ignore[arg-type]
            else:
                json_identifiers(item, node, number, found)
    elif isinstance(node, str):
        if isinstance(value, str):
            found.append((value, number, node, style_of(value, STRING)))
    elif isinstance(value, dict):
        for name, member in value.items():
            if name in node:
                json_identifiers(member, node[name], number, found)
