"""What a foreign client sends, and what must come, by RFC 2608. A row is a name, the way, the message, and the fields that the reply has: `name` is that of its
function and `code` its code; nothing stands for silence. The shapes of known clients and devices are from memory."""
import struct

from rfc2608 import OVERFLOW, REQUEST_MCAST, attr_rqst, block, message, srv_dereg, srv_reg, srv_rqst, srv_type_rqst, string, url_entry

UDP, TCP, BOTH = ("datagram",), ("stream",), ("datagram", "stream")
DIRECTORY = "service:directory-agent"
SILENCE = None
A, B, KIND = "service:interop:tcp://h1:1", "service:interop:tcp://h2:1", "service:interop:tcp"
FOREIGN = b"\x97\x99\0\0\0" + struct.pack(">I", 4242)  # OpenSLP's extension with the number of its process
NEEDED, OPTIONAL = b"\x40\x02\0\0\0abc", b"\0\1\0\0\0abc"


def ack(code=0):
    return {"name": "SrvAck", "code": code}


def urls(*found, **more):
    return {"name": "SrvRply", "code": 0, "urls": sorted(found), **more}


def refused(name, code):
    return {"name": name, "code": code}


def attrs(text):
    return {"name": "AttrRply", "code": 0, "attrs": text}


def types(text):
    return {"name": "SrvTypeRply", "code": 0, "types": sorted(text.lower().split(","))}


def adverts(host):
    whole = {"name": "DAAdvert", "code": 0, "url": f"{DIRECTORY}://{host}", "scopes": "default,office", "attrs": "", "spis": ""}
    return [
        ("who asks for directories, without scopes", BOTH, srv_rqst(DIRECTORY, ""), whole),
        ("in a scope that it has", UDP, srv_rqst(DIRECTORY, "DEFAULT"), whole),
        ("in capitals", UDP, srv_rqst(DIRECTORY.upper(), ""), whole),
        ("with a colon at the end", UDP, srv_rqst(f"{DIRECTORY}:", ""), whole),
        ("with REQUEST MCAST", UDP, srv_rqst(DIRECTORY, "DEFAULT", flags=REQUEST_MCAST), whole),
        ("with REQUEST MCAST in a foreign scope", UDP, srv_rqst(DIRECTORY, "foreign", flags=REQUEST_MCAST), SILENCE),
        ("which has answered already", UDP, srv_rqst(DIRECTORY, "", responders=host), SILENCE),
        ("where others have answered already", UDP, srv_rqst(DIRECTORY, "", responders="10.0.0.9,10.0.0.10"), whole),
        ("who asks for service agents (findscopes of OpenSLP, nmap)", UDP, srv_rqst("service:service-agent"), SILENCE),
    ]


REGISTERING = [
    ("a registration", UDP, srv_reg(A, KIND, "(a=1),(b=x,y),kw"), ack()),
    ("the same again", TCP, srv_reg(A, KIND, "(a=1),(b=x,y),kw"), ack()),
    ("for the longest lifetime", UDP, srv_reg(B, KIND, "(a=2)", lifetime=65535), ack()),
    ("for no lifetime", UDP, srv_reg("service:interop:tcp://h3:1", KIND, lifetime=0), ack(3)),
    ("an update", UDP, srv_reg(B, KIND, "(c=3)", flags=0), ack()),
    ("an update of what is not there", UDP, srv_reg("service:interop:tcp://h3:1", KIND, flags=0), ack(13)),
    ("in a foreign scope", UDP, srv_reg(A, KIND, scopes="foreign"), ack(4)),
    ("in another language", UDP, srv_reg("service:interop:udp://h4:1", "service:interop:udp", "(ort=Flur)", language="de"), ack()),
    ("with OpenSLP's extension", UDP, srv_reg(B, KIND, "(a=2)", extension=FOREIGN), ack()),
    ("with an extension that may be passed over", UDP, srv_reg(B, KIND, "(a=2)", extension=OPTIONAL), ack()),
    ("with one that may not", UDP, srv_reg(B, KIND, "(a=2)", extension=NEEDED), ack(12)),
    ("with a block over the URL", UDP, srv_reg(B, KIND, "(a=2)", blocks=block()), ack(5)),
    ("with a block over the attributes", UDP, srv_reg(B, KIND, "(a=2)", attr_blocks=block()), ack(5)),
    ("a type of four parts", UDP, srv_reg("service:x:y:z://h", "service:x:y:z"), ack(3)),
    ("in the language en-US", UDP, srv_reg("service:interop-us://h", "service:interop-us", "(location=hall)", language="en-US"), ack()),
    ("a type with /", UDP, srv_reg("service:x/y://h", "service:x/y"), ack(3)),
    ("a URL with a blank", UDP, srv_reg("service:interop:tcp://h5/HP LaserJet", KIND), ack(3)),
    ("a type that ends within its text", UDP, message("SrvReg", url_entry(A, 300) + struct.pack(">H", 99) + b"service:x"), ack(2)),
]

ATTRIBUTES = [(f"attributes: {name}", UDP, srv_reg("service:interop:attrs://h", "service:interop:attrs", text), ack(code)) for name, text, code in (
    ("raw parentheses", "(make=HP LaserJet P2055dn (V2.1))", 2),
    ("the same, escaped", r"(make=HP LaserJet P2055dn \28V2.1\29)", 0),
    ("an IEEE 1284 id with a raw =", "(id=MFG:HP;MDL:LaserJet;SN=123)", 2),
    ("raw < and >", "(contact=Joe <joe@x>)", 2),
    ("a raw !", "(note=Wow!)", 2),
    ("a tag with _", "(num_ports=1)", 2),
    ("the same, escaped", r"(num\5fports=1)", 0),
    ("a comma at the end", "(color=true),", 2),
    ("Latin-1", b"(location=B\xfcro)", 2),
    ("UTF-8", "(location=Büro)", 0),
    ("no parentheses", "color=true", 2),
    ("an empty value", "(location=)", 0),
    ("a blank, TAB and CR LF between attributes", "(a=1), (b=2),\r\n\t(c=3)", 0),
    ("quotes", '(a="x, y")', 0),
    ("an opaque value", r"(key=\FF\00\01)", 0),
    ("a tag alone", "resumable", 0),
)]

SHAPES = [(f"shape: {name}", UDP, srv_reg(url, kind, text), ack()) for name, url, kind, text in (
    ("a printer (lpr)", "service:printer:lpr://10.1.1.1/queue", "service:printer:lpr", "(color=true),(printer-name=lp1),(printer-make-and-model=Ricoh Aficio MP C2500),(printer-location=3rd floor)"),
    ("a printer (ipp)", "service:printer:ipp://10.1.1.2/ipp", "service:printer:ipp", "(printer-document-format-supported=application/postscript,application/vnd.hp-pcl)"),
    ("ESXi wbem", "service:wbem:https://10.1.2.1:5989", "service:wbem:https",
     "(template-url-syntax=https://10.1.2.1:5989),(service-id=VMware:1),(CommunicationMechanism=CIM-XML),(Namespace=root/cimv2,root/interop),(Classinfo=0,0)"),
    ("ESXi", "service:VMwareInfrastructure://esx1.example", "service:VMwareInfrastructure", '(product="VMware ESXi 6.0.0 build-123"),(hardwareUuid="4c4c4544")'),
    ("Novell's tree", "service:ndap.novell:///TREE.", "service:ndap.novell", ""),
    ("Novell's bindery", "service:bindery.novell:///FS1", "service:bindery.novell", "(svcname-ws=FS1),(svcaddr-ws=2-1-6-0a010203020c0000000000000000)"),
    ("IBM's management module", "service:management-hardware.IBM:management-module://10.1.3.1", "service:management-hardware.IBM:management-module", "(type=management-module),(level=1.0),(serial-number=KQ1)"),
    ("Apple's file server", "service:afp://10.1.4.1/?NAME=Mac", "service:afp", ""),
    ("a file server", "service:smb://files1/share", "service:smb", "(dialect=3.0)"),
    ("a type with _, which the grammar does not have", "service:tsm_server://h", "service:tsm_server", ""),
    ("another scheme than service:", "http://10.1.5.1/", "http", ""),
)]

PREDICATES = [(f"predicate {text}", UDP, srv_rqst("service:interop", predicate=text), wanted) for text, wanted in (
    ("(a=1)", urls(A)), ("(&(a=1)(b=X))", urls(A)), ("(|(a=1)(a=2))", urls(A, B)), ("(a>=2)", urls(B)), ("(a<=1)", urls(A)), ("(kw=*)", urls(A)), ("(b=*x*)", urls(A)), ("(!(a=1))", urls(B)),
    ("(& (a=1) (b=y))", urls(A)), ("(a~=1)", urls(A)), ("(nothing=1)", urls()), ("(a=1", refused("SrvRply", 2)), ("a=1", refused("SrvRply", 2)), ("(num_ports=1)", refused("SrvRply", 2)),
)]

ASKING = [
    ("services of a type", BOTH, srv_rqst(KIND), urls(A, B)),
    ("of a type above it, in capitals", UDP, srv_rqst("SERVICE:Interop", "default,foreign"), urls(A, B, "service:interop:attrs://h", "service:interop:udp://h4:1")),
    ("of a type that nobody has", UDP, srv_rqst("service:nobody"), urls()),
    ("in no scope", UDP, srv_rqst(KIND, ""), refused("SrvRply", 4)),
    ("in a foreign scope", UDP, srv_rqst(KIND, "foreign"), refused("SrvRply", 4)),
    ("with an SPI", UDP, srv_rqst(KIND, spi="openslp"), refused("SrvRply", 5)),
    ("by a filter in another language", UDP, srv_rqst(KIND, predicate="(a=1)", language="fr"), refused("SrvRply", 1)),
    ("with REQUEST MCAST, and nothing is there", UDP, srv_rqst("service:nobody", flags=REQUEST_MCAST), SILENCE),
    ("attributes of a URL", BOTH, attr_rqst(A), attrs("(a=1),(b=x,y),kw")),
    ("attributes by tags", UDP, attr_rqst(A, tags="b,k*"), attrs("(b=x,y),kw")),
    ("attributes of a type", UDP, attr_rqst(KIND, tags="a"), attrs("(a=1,2)")),
    ("attributes of what is in another language", UDP, attr_rqst("service:interop:udp://h4:1"), refused("AttrRply", 1)),
    ("attributes in that language", UDP, attr_rqst("service:interop:udp://h4:1", language="de"), attrs("(ort=Flur)")),
    ("a filter in en over what is in en-US", UDP, srv_rqst("service:interop-us", predicate="(location=hall)"), refused("SrvRply", 1)),
    ("without a filter it is found", UDP, srv_rqst("service:interop-us"), urls("service:interop-us://h")),
    ("attributes with an SPI", UDP, attr_rqst(A, spi="openslp"), refused("AttrRply", 5)),
    ("all types", BOTH, srv_type_rqst(), types("http,service:VMwareInfrastructure,service:afp,service:bindery.novell,service:interop-us,service:interop:attrs,service:interop:tcp,service:interop:udp,"
     "service:management-hardware.IBM:management-module,service:ndap.novell,service:printer:ipp,service:printer:lpr,service:smb,service:tsm_server,service:wbem:https")),
    ("types of an authority", UDP, srv_type_rqst(authority="novell"), types("service:bindery.novell,service:ndap.novell")),
    ("types in a foreign scope", UDP, srv_type_rqst("foreign"), refused("SrvTypeRply", 4)),
    ("version 1", UDP, message("SrvRqst", string("") + string(KIND) + string("DEFAULT") + string("") + string(""), version=1), {"code": 9}),
    ("version 1 on a stream, where its length is read at another place", TCP, b"\1\1\0\x40\0\0en\0\3\0\1" + b"\0\0" + string("service:test//(())/") + bytes(20), SILENCE),
    ("a reply", UDP, message("SrvAck", b"\0\0"), SILENCE),
    ("a question that is torn", UDP, message("SrvRqst", string("") + string(KIND) + b"\0"), refused("SrvRply", 2)),
]

LEAVING = [
    ("a tag is withdrawn", UDP, srv_dereg(A, tags="b"), ack()),
    ("it is gone", UDP, attr_rqst(A), attrs("(a=1),kw")),
    ("a service is withdrawn in other scopes than its own", UDP, srv_dereg(A, "office"), ack(4)),
    ("a service is withdrawn", TCP, srv_dereg(A), ack()),
    ("it is withdrawn once more", UDP, srv_dereg(A), ack()),
    ("it is not found", UDP, srv_rqst(KIND), urls(B)),
]

MANY = [f"service:interop-many://host-{number:02}.example.org/a-path-of-some-length" for number in range(30)]
LONG = [(f"number {number} of many", UDP, srv_reg(url, "service:interop-many"), ack()) for number, url in enumerate(MANY)]
CUT = [
    ("what a datagram does not hold is cut", UDP, srv_rqst("service:interop-many"), {"name": "SrvRply", "code": 0, "flags": OVERFLOW}),
    ("and whole on a stream", TCP, srv_rqst("service:interop-many"), urls(*MANY, flags=0)),
]


def rows(host):
    """All rows, in their order, for a directory at an address."""
    answered = [("services of a type, which has answered already", UDP, srv_rqst(KIND, responders=f"10.0.0.9,{host}"), SILENCE)]
    return [*adverts(host), *REGISTERING, *PREDICATES, *ATTRIBUTES, *SHAPES, *ASKING, *answered, *LEAVING]


def urls_of(wanted):
    """The URLs that rows register, which are withdrawn before and after."""
    named = [A, B, "service:interop-us://h", "service:interop:tcp://h3:1", "service:interop:udp://h4:1", "service:interop:attrs://h", *MANY]
    return named + [it for it in wanted if it not in named]
