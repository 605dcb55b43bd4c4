"""The flags of cases: what a wrong verdict would mean, and where the text is."""
from __future__ import annotations

import dataclasses


@dataclasses.dataclass(frozen=True)
class Flag:
    kind: str
    description: str
    sections: tuple[str, ...] = ()

    def json(self) -> dict[str, object]:
        return {"bugType": self.kind, "description": self.description, "rfc": list(self.sections)}


def flag(kind: str, description: str, *sections: str) -> Flag:
    return Flag(kind, description, sections)


ORDINARY = {
    "Normal": flag("BASIC", "An ordinary message"),
    "LongMessage": flag("BASIC", "A length of three bytes and more"),
    "OverKrbrelayLimit": flag("EDGE_CASE", "A message over the 1,005,000 bytes that krbrelay opens. RFC 4120 has no limit"),
    "AtKrbrelayLimit": flag("EDGE_CASE", "A message, text or batch as long as krbrelay takes it"),
    "NumberZero": flag("EDGE_CASE", "The sequence number 0, written"),
    "ClockAtEpoch": flag("EDGE_CASE", "The clock stands at 1970-01-01"),
    "After2038": flag("EDGE_CASE", "Times from 2038-01-19T03:14:08Z on", "RFC4120 5.2.3"),
    "After2106": flag("EDGE_CASE", "Times from 2106-02-07T06:28:16Z on", "RFC4120 5.2.3"),
    "OtherSkew": flag("EDGE_CASE", "A skew that isn't five minutes"),
    "KeyVersion": flag("LEGACY", "A key version, which only messages under long-lasting keys have; gokrb5 sends 1",
                       "RFC4120 5.2.9"),
}

SPELLING = {
    "BerLength": flag("BER", "A length in more bytes than needed. Receivers MAY accept BER", "RFC4120 5.1.1"),
    "BerIndefinite": flag("BER", "An indefinite length. Receivers MAY accept BER", "RFC4120 5.1.1"),
    "BerConstructedString": flag("BER", "An OCTET STRING of segments. Receivers MAY accept BER", "RFC4120 5.1.1"),
    "BerTime": flag("BER", "A GeneralizedTime that KerberosTime excludes", "RFC4120 5.2.3"),
    "NonMinimalInteger": flag("BER", "An INTEGER with bytes too many, which BER excludes too", "X.690 8.3.2"),
    "EmptyInteger": flag("PARSING", "An INTEGER without bytes, of a field that isn't compared", "X.690 8.3.1"),
    "BadInteger": flag("PARSING", "An INTEGER without bytes, of a field that is compared", "X.690 8.3.1"),
    "LongFormTag": flag("BER", "A tag below 31 in the long form, which BER excludes too", "X.690 8.1.2.2"),
    "WrongLength": flag("PARSING", "A length that doesn't fit", "RFC4120 5.1.1"),
    "WrongTag": flag("PARSING", "A tag that doesn't belong there", "RFC4120 A"),
    "BadTime": flag("PARSING", "No time", "RFC4120 5.2.3"),
    "Before1970": flag("EDGE_CASE", "Times before 1970", "RFC4120 5.2.3"),
    "LeapSecond": flag("EDGE_CASE", "Second 60, of which RFC 4120 says nothing", "RFC4120 5.2.3"),
    "MissingField": flag("PARSING", "A field that isn't OPTIONAL is left out", "RFC4120 A"),
    "DuplicateField": flag("PARSING", "A field stands twice", "RFC4120 A"),
    "FieldOrder": flag("PARSING", "Fields out of order", "RFC4120 A"),
    "Truncated": flag("PARSING", "A message cut short", "RFC4120 5.1.1"),
    "OutOfRange": flag("PARSING", "A number outside its type", "RFC4120 5.2.4", "RFC4120 8.1"),
    "OutOfRangeIgnored": flag("PARSING", "Microseconds or a key version outside their type. Receivers MAY refuse",
                              "RFC4120 5.2.4", "RFC4120 8.1"),
    "NegativeKeyVersion": flag("LEGACY", "A key version below 0", "RFC4120 5.2.9", "RFC4120 8.1"),
    "UnknownField": flag("EXTENSION", "A field that isn't known stands last, under the protection where there is one. "
                         "Recipients SHOULD ignore it", "RFC4120 1.5.1"),
    "TrailingElement": flag("EXTENSION", "An element without a context tag stands last in a SEQUENCE"),
    "TrailingBytes": flag("MALLEABILITY", "Bytes after the message. RFC 4120 is silent"),
    "PaddedPart": flag("LEGACY", "Bytes after the enciphered part, as encryption types that pad leave them",
                       "RFC3961 5.3"),
}

FRESHNESS = {
    "OmittedMicroseconds": flag("INTEROPERABILITY", "A time without microseconds, which SHOULD count as 0 if the "
                                "application expects it", "RFC4120 5.1.2"),
    "OmittedNumber": flag("INTEROPERABILITY", "No number where 0 is demanded. Receivers MAY take it as 0", "RFC4120 5.5.1",
                          "RFC4120 5.1.2"),
    "AbsentMicrosecondsAreZero": flag("INTEROPERABILITY", "The receiver is told to count absent microseconds as 0",
                                      "RFC4120 5.1.2"),
    "MicrosecondsAlone": flag("EDGE_CASE", "Microseconds without a timestamp"),
    "MicrosecondsAloneIgnored": flag("EDGE_CASE", "Microseconds without a timestamp, where no time is demanded"),
    "NegativeNumber": flag("INTEROPERABILITY", "A number from 2^31 on as the equivalent negative one, which receivers MAY "
                           "accept", "RFC4120 5.5.1"),
    "OldHeimdalNumber": flag("INTEROPERABILITY", "A number whose highest bit is its first one without a zero before it, as "
                             "old versions of Heimdal wrote it"),
    "SignExtendedNumber": flag("REPLAY", "The number that old Heimdal's spelling of the demanded one would be read as, in "
                               "its right spelling"),
    "WrapToZero": flag("INTEROPERABILITY", "Numbers wrap to 0 after 2^32 - 1", "RFC4120 5.5.1"),
    "WrongNumber": flag("REPLAY", "Another sequence number", "RFC4120 3.4.2"),
    "MissingNumber": flag("REPLAY", "No sequence number where one is demanded", "RFC4120 3.4.2"),
    "NeitherTimeNorNumber": flag("REPLAY", "Neither timestamp nor sequence number: KRB_AP_ERR_MODIFIED",
                                 "RFC4120 3.4.2", "RFC4120 3.5.2"),
    "NeitherButMicroseconds": flag("REPLAY", "Microseconds without a timestamp, and no number, where a time is compared if "
                                   "present", "RFC4120 3.4.2", "RFC4120 3.5.2"),
    "TimeOrNumberNeeded": flag("REPLAY", "The receiver is told to refuse a message that tells neither a time nor a number",
                               "RFC4120 3.4.2", "RFC4120 3.5.2"),
    "NeitherAtNumber0": flag("REPLAY", "The same where the number 0 is demanded, for which no number may count: it isn't told",
                             "RFC4120 3.4.2", "RFC4120 3.5.2", "RFC4120 5.1.2"),
    "Replayed": flag("REPLAY", "Messages repeated, left out or out of order", "RFC4120 5.5.1"),
    "StateAfterForgery": flag("DENIAL_OF_SERVICE", "A forged message is refused, and the right ones after it are to be taken"),
    "MixedStream": flag("REPLAY", "Forgeries, repeats and gaps between the messages of a session"),
    "LateAgain": flag("EDGE_CASE", "A message that came too early comes again in its turn"),
    "ReplayCache": flag("REPLAY", "The same time again. A receiver with a cache refuses it", "RFC4120 3.4.2"),
    "Skew": flag("REPLAY", "A time outside the skew", "RFC4120 3.4.2"),
    "TimeOverflow": flag("REPLAY", "A time that is 2^31 seconds or more off, which 32 bits don't show", "RFC4120 3.4.2"),
    "SubsecondSkew": flag("EDGE_CASE", "Outside the skew by less than a second"),
    "MissingTime": flag("REPLAY", "No time where one is demanded", "RFC4120 3.4.2"),
}

ADDRESSES = {
    "WrongAddress": flag("REFLECTION", "Another address", "RFC4120 3.4.2"),
    "Reflected": flag("REFLECTION", "A message that came back to its maker", "RFC4120 7.1"),
    "MissingSender": flag("INTEROPERABILITY", "No s-address, which isn't OPTIONAL; Heimdal leaves it out where it knows none",
                          "RFC4120 5.6.1"),
    "MissingDemandedSender": flag("REFLECTION", "No s-address, though one is demanded", "RFC4120 3.4.2"),
    "ReceiverRequired": flag("REFLECTION", "The receiver's address is required", "RFC4120 3.4.2"),
    "ReceiverUnknown": flag("EDGE_CASE", "The message tells a receiver, and this one knows no address of its own"),
    "DirectionalAddress": flag("INTEROPERABILITY", "A directional address. Receivers SHOULD accept it", "RFC4120 7.1",
                               "RFC4120 8.1"),
    "DirectionalReceiver": flag("EDGE_CASE", "A directional address as r-address, which senders MUST NOT write",
                                "RFC4120 7.1"),
    "OtherAddressType": flag("INTEROPERABILITY", "Other types of addresses, equal in type and bytes", "RFC4120 7.5.3"),
    "LongAddress": flag("EDGE_CASE", "An address of more than 40 bytes that isn't demanded"),
}

PROTECTION = {
    "WrongValue": flag("TYPE_CONFUSION", "Another version, kind or encryption type", "RFC4120 3.4.2"),
    "UnauthenticatedField": flag("MALLEABILITY", "Something was changed or added after the checksum, which covers the "
                                 "whole KRB-SAFE", "RFC4120 5.6.1"),
    "WrongChecksum": flag("FORGERY", "Another checksum", "RFC4120 3.4.2"),
    "ShortChecksum": flag("FORGERY", "A checksum cut short: one of no bytes is forged by anybody", "RFC3961 5.4"),
    "LongChecksum": flag("MALLEABILITY", "A checksum with bytes too many", "RFC3961 5.4"),
    "UnkeyedChecksum": flag("FORGERY", "A checksum without a key, which anybody can compute", "RFC4120 3.4.2"),
    "OtherChecksumType": flag("FORGERY", "A type of checksum that isn't this encryption type's", "RFC3962 7"),
    "HmacMd5UnderAes": flag("LEGACY", "HMAC-MD5 of RFC 4757 under an AES key: keyed, but of another encryption type",
                            "RFC4120 3.4.2"),
    "Rfc1510Checksum": flag("LEGACY", "The checksum of RFC 1510, over the body alone", "RFC4120 5.6.1"),
    "WrongInput": flag("FORGERY", "A checksum under the right key over something else", "RFC4120 5.6.1"),
    "WrongUsage": flag("FORGERY", "Another key usage or derived key", "RFC4120 7.5.1"),
    "WrongKey": flag("FORGERY", "Another key"),
    "WrongMac": flag("FORGERY", "Another HMAC", "RFC3961 5.3"),
    "ShortMac": flag("FORGERY", "An HMAC cut short", "RFC3961 5.3"),
    "ShortCipher": flag("FORGERY", "A cipher that is too short", "RFC3961 5.3"),
    "Confounder": flag("FORGERY", "No confounder of 16 bytes", "RFC3961 5.3"),
    "NoPart": flag("PARSING", "An authentic text that is no EncKrbPrivPart", "RFC4120 5.7.1"),
    "WrongStealing": flag("FORGERY", "CBC without RFC 3962's ciphertext stealing", "RFC3962 5"),
    "Modified": flag("FORGERY", "Changed on its way"),
    "ModifiedBody": flag("FORGERY", "A byte of a KRB-SAFE's body changed on its way, and often a field by it"),
    "OneCheckFails": flag("BASIC", "One check fails, and all others hold"),
    "TwoChecksFail": flag("EDGE_CASE", "Two checks fail. RFC 4120's order says which is reported", "RFC4120 3.4.2",
                          "RFC4120 3.5.2"),
}

RECORDS = {
    "Record": flag("BASIC", "A record of krbrelay: a text, a batch or a close"),
    "BadRecord": flag("PARSING", "User data that are no record of krbrelay"),
    "AfterClose": flag("REPLAY", "A message after a close of krbrelay"),
}

FLAGS = ORDINARY | SPELLING | FRESHNESS | ADDRESSES | PROTECTION | RECORDS
