"""The session key of two programs comes from Kerberos, by Debian's python3-gssapi: the client sends
a token, which has an AP-REQ, and the service answers by one, which has an AP-REP. Both have a key
then."""
import sys

import gssapi
from gssapi.raw import inquire_sec_context_by_oid
from krbrelay import Address, Mode, Opener, Sealer

# GSS_C_INQ_SSPI_SESSION_KEY of MIT's library: the key, and its type as the last part of an OID.
SESSION_KEY = gssapi.OID.from_int_seq("1.2.840.113554.1.2.2.5.5")
CLIENT, SERVICE = Address.ip("10.0.0.1"), Address.ip("10.0.0.2")


def key_of(context):
    """The session's key, the acceptor's subkey, and its encryption type."""
    key, kind = inquire_sec_context_by_oid(context, SESSION_KEY)
    return kind[-1], key


def main(name):
    service = gssapi.Name(name, gssapi.NameType.hostbased_service)
    client = gssapi.SecurityContext(name=service, usage="initiate",
                                    flags=gssapi.RequirementFlag.mutual_authentication)
    server = gssapi.SecurityContext(usage="accept")     # by the service's keytab
    token = client.step()                               # of the client: send it to the service
    answer = server.step(token)                         # of the service: send it back
    client.step(answer)
    with Sealer(*key_of(client), mode=Mode.PRIV, sender=CLIENT) as sealer:
        message = sealer.seal(f"hello from {client.initiator_name}".encode())
    with Opener(*key_of(server), mode=Mode.PRIV, sender=CLIENT, receiver=SERVICE) as opener:
        print(opener.unseal(message, 0).decode())


main(sys.argv[1])
