import javax.smartcardio.*;

/** Reads the ICCID by Java's own card software. */
class Read {
    public static void main(String[] words) throws Exception {
        Card card = TerminalFactory.getDefault().terminals().list().get(0).connect("*");
        CardChannel channel = card.getBasicChannel();
        channel.transmit(new CommandAPDU(0x00, 0xA4, 0x00, 0x0C, new byte[] {0x2F, (byte) 0xE2}));
        for (byte it : channel.transmit(new CommandAPDU(0x00, 0xB0, 0x00, 0x00, 10)).getBytes())
            System.out.printf("%02X", it);
        card.disconnect(true);
    }
}
