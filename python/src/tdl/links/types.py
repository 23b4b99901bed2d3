"""The link types that are known: those of GS1, and those that are registered."""
from __future__ import annotations

from difflib import get_close_matches
from functools import lru_cache
from typing import Optional

PREFIX = "gs1:"
# The link types of the GS1 Web Vocabulary, https://ref.gs1.org/voc/, as of 2024, as far as this project knows them: compare them with your copy.
GS1 = frozenset(
    """
    activityIdeas allergenInfo appDownload brandHomepageClinical brandHomepagePatient careersInfo certificationInfo
    consumerHandlingStorageInfo defaultLink defaultLinkMulti dpp epcis epil eventsInfo faqs handledBy hasRetailers homepage
    ingredientsInfo instructions jws leaveReview locationInfo logisticsInfo loyaltyProgram masterData menuInfo nutritionalInfo
    openingHoursInfo paymentLink pip productSustainabilityInfo promotion purchaseSuppliesOrAccessories quickStartGuide recallStatus
    recipeInfo registerProduct registryEntry relatedImage relatedVideo review safetyInfo scheduleTime serviceInfo smartLabel smpc
    socialMedia statisticInfo subscribe support sustainabilityInfo traceability tutorial userAgreement verificationService whatsInTheBox
    """.split()
)
# The relation types that IANA registers for links (RFC 8288, section 4.2), as of 2024.
REGISTERED = frozenset(
    """
    about acl alternate amphtml api-catalog appendix apple-touch-icon apple-touch-startup-image archives author blocked-by bookmark
    c2pa-manifest canonical chapter cite-as collection compression-dictionary contents convertedfrom copyright create-form current
    deprecation describedby describes disclosure dns-prefetch duplicate edit edit-form edit-media enclosure external first geofeed
    glossary help hosts hub ice-server icon index intervalafter intervalbefore intervalcontains intervaldisjoint intervalduring
    intervalequals intervalfinishedby intervalfinishes intervalin intervalmeets intervalmetby intervaloverlappedby intervaloverlaps
    intervalstartedby intervalstarts item last latest-version license linkset lrdd manifest mask-icon me media-feed memento micropub
    modulepreload monitor monitor-group next next-archive nofollow noopener noreferrer opener openid2.local_id openid2.provider original
    p3pv1 payment pingback preconnect predecessor-version prefetch preload prerender prev prev-archive preview previous privacy-policy
    profile publication rdap-active rdap-bottom rdap-down rdap-top rdap-up related replies restconf ruleinput search section self service
    service-desc service-doc service-meta sip-trunking-capability sponsored start status stylesheet subsection successor-version sunset
    tag terms-of-service timegate timemap type ugc up version-history via webmention working-copy working-copy-of
    """.split()
)


@lru_cache(maxsize=4096)
def doubt_of(relation: str) -> Optional[str]:
    """Returns what is doubtful about a link type, with the nearest that is known, or None. A URI is not judged."""
    is_gs1 = relation.startswith(PREFIX)
    name = relation[len(PREFIX) :] if is_gs1 else relation
    if (name in GS1) if is_gs1 else (name in REGISTERED or ":" in relation):
        return None
    # (in either case, since a wrong case is the commonest slip; a link type of GS1 first)
    spelled = {**{it.lower(): it for it in REGISTERED}, **{it.lower(): PREFIX + it for it in GS1}}
    near = get_close_matches(name.lower(), spelled, 1)
    hint = f"; the nearest is {spelled[near[0]]}" if near else ""
    return f"{'GS1 has no link type of this name' if is_gs1 else 'no relation type of this name is registered'}{hint}"
