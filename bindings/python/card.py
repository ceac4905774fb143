"""Makes the factory card, and reads its ICCID."""

from soffitfennel import Card

with Card() as card:
    card.power_on()
    card.transmit(bytes.fromhex("00A4000C022FE2"))
    print(card.transmit(bytes.fromhex("00B000000A")).hex().upper())
