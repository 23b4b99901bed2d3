"""EPCIS documents: each identifier in one form."""
