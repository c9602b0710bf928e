import oer

with oer.Types("Id ::= OCTET STRING") as types:
    made = types.canon("Id", bytes.fromhex("81026162"))
    print("read", made.read, "octets, wrote", len(made.octets))
    try:
        types.check("Id", bytes.fromhex("0361"))
    except oer.Rejected as rejected:
        print(rejected.reason.name, "place", rejected.place)
