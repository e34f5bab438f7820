// Schedules to begin with, each with what is to be seen in it.
import { scheduleOf } from "./number.js";

const header = (slave = "slave 2 200 1000 2", watchdog = 100) => `fsoe 1 pair
lengths 2 2
master 1 2 ${watchdog} 1
${slave}
rule any 0
go
`;

const exchanges = (count) => "ds -1\ndm -1\n".repeat(count);

/** The master offers 0100 and the slave 8000; after the first tick and eight exchanges both have taken data. */
const running = (first = header()) => `${first}pm 0100\nps 8000\ntm\n${exchanges(8)}`;

const lines = (...each) => `${each.join("\n")}\nend\n`;

export const EXAMPLES = [
  {
    name: "A handshake, and the first data",
    about: `Each end begins in state Reset with outputs of zeros. The master's first tick sends a Reset frame; then each end answers the other's last
frame. Session ids, the connection and the parameters go over in pieces of two bytes. Only in state Data do outputs show what the peer
offered.`,
    text: `${running()}end\n`,
  },
  {
    name: "A frame comes a cycle late",
    about: `At event 20 the slave's last frame comes to the master once more, since the master's own hasn't come to the slave. It is dropped as a
repeat, without an answer. The master's frame comes after it, at event 21, and the exchange goes on. Nothing is taken twice.`,
    text: running() + lines("dm -1", "ds -1", "dm -1"),
  },
  {
    name: "A frame comes twice",
    about: `The slave's frame is taken at event 19. At event 20 it comes to the master again, the same in each byte: the master drops it, and its data
don't count twice. So does the slave at event 23.`,
    text: running() + lines("dm -1", "pm 0200", "ds -1", "ds -1", "dm -1"),
  },
  {
    name: "An old frame comes late",
    about: `At event 22 the frame comes to the slave that the master sent three frames ago. Each CRC covers the CRC of the frame that it answers and a
number that isn't on the wire; so an old frame doesn't fit, although its bytes were right once. The slave finds a wrong CRC (04) and
resets: its outputs are zeros at once.`,
    text: running() + lines("ds -1", "dm -1", "ds -3", "dm -1", "ds -1"),
  },
  {
    name: "A late answer is still the awaited one",
    about: `At event 21 the slave is told to reset. Its answer from before was under way and comes at event 22: it is still the one that the master
awaits, unaltered and for the first time, so it is taken. The slave's Reset frame ends the session at event 23.`,
    text: running() + lines("ds -1", "zs", "dm -2", "dm -1"),
  },
  {
    name: "A bit is turned",
    about: `At event 20 one bit of the data is turned on the way to the slave. The CRC finds that. The slave resets with code 04, its outputs are
zeros, and the master follows. A handshake brings both back to Data.`,
    text: running() + lines("as -1 1 01", "dm -1", "ds -1", "dm -1", exchanges(8).trimEnd()),
  },
  {
    name: "A forged frame with wrong CRCs",
    about: `At event 20 a frame comes to the slave that nobody sent. Whoever made it knew the layout, but not the CRCs: they don't fit, and the slave
resets. Outputs show nothing of it.`,
    text: running() + lines("rs 36ff0012340100", "dm -1"),
  },
  {
    name: "A forged frame with the right CRCs",
    about: `At event 20 a frame comes to the slave that nobody sent, with exactly the CRCs that the slave expects. No receiver can tell it from the
awaited frame, so its data ff00 are taken. The report doesn't hide that: it names the first "other" entry, in which a frame
passed the test of the CRCs that wasn't the awaited one. The law of the pair holds of all lines before it. A CRC is no secret: two bytes
may be right by chance, and who sees the wire can compute them. At event 21 the slave's answer comes to the master, which doesn't await
it: both ends reset.`,
    text: running() + lines("rs 36ff004ee90100", "dm -1", "ds -1"),
  },
  {
    name: "A frame is lost: the watchdog expires",
    about: `The watchdog is 4 ticks here. The frame that the master sends at event 19 is lost, and no other comes. At the fourth tick since it sent,
each end resets with code 05, and its outputs are zeros.`,
    text: running(header("slave 2 200 1000 2", 4)) + lines("ts", "tm", "ts", "tm", "ts", "tm", "ts", "tm"),
  },
  {
    name: "A reset of its own",
    about: `At event 20 the slave is told to reset. Its Reset frame ends the master's session too, and a handshake follows. Take note of the session
ids: both ends use the ids 1 and 2 again, which a device must not do (see “An old session is played again”).`,
    text: running() + lines("zs", "dm -1", "ds -1", "dm -1", exchanges(7).trimEnd()),
  },
  {
    name: "Another slave's address",
    about: `The master asks for the slave with address 2, and this one has address 3. It finds that with the last byte of the Connection payload, and
resets with code 06. State Data isn't reached.`,
    text: lines(`${header("slave 3 200 1000 2")}tm`, exchanges(8).trimEnd()),
  },
  {
    name: "A watchdog that is too long",
    about: "The master's watchdog is 100 ticks, and this slave accepts at most 50. It refuses the parameter with code 09.",
    text: lines(`${header("slave 2 200 50 2")}tm`, exchanges(8).trimEnd()),
  },
  {
    name: "Profile Two: session ids of 32 bits",
    about: `In profile Two session ids have 32 bits, and a word of the master's is compared with the slave's, here 7. With these and two bytes of
application parameters the handshake takes 10 exchanges, where profile One without parameters takes 7.`,
    text: lines(
      "fsoe 1 pair\nlengths 2 4\nmaster 1 2 100 305419896\nprofile 7\napp 0a0b",
      "slave 2 200 1000 2271560481\nprofile 7\nrule exact\nbytes 0a0b\ngo\npm 0100\nps 80000001\ntm",
      exchanges(11).trimEnd(),
    ),
  },
  {
    name: "An old session is played again",
    about: `A device lost power, and uses its old session ids again. Then the frames of the old session, recorded on the wire, have the right CRCs:
the slave goes through a whole handshake with a recording, and takes its data. The report names the first such frame. Give the slave a
fresh id before its reset, as with “ns 3”, and the recording is refused.`,
    text: running() + lines("zs", "ds -8", "ds -7", "ds -6", "ds -5", "ds -4", "ds -3", "ds -2"),
  },
  {
    name: "The same with a fresh session id",
    about: `The slave has a fresh id for its next session: the recording is refused with its second frame of a session, by its CRCs.`,
    text: running() + lines("ns 3", "zs", "ds -8", "ds -7", "ds -6", "ds -5"),
  },
  {
    name: "Fail-safe data",
    about: `At event 20 the master is held: from its next frame on it sends zeros in FailSafeData frames, in place of its offer, and the slave's
outputs are zeros. Both stay in state Data.`,
    text: running() + lines("hm 1", "ds -1", "dm -1", "ds -1", "dm -1", "hm 0", "ds -1", "dm -1", "ds -1"),
  },
  {
    name: "Twice, forged, altered and late",
    about: `With four bytes each way a handshake is shorter. A frame comes again at event 16. At 17 a forged one has the right CRCs, and is taken; so
the answer to it doesn't fit at 18. Then a byte of the master's Reset frame is altered, and the data frame comes late that it sent before.`,
    text: lines(
      "fsoe 1 pair\nlengths 4 4\nmaster 1 2 100 1\nslave 2 200 1000 2\nrule any 0\ngo\npm 01000000\nps 80000000\ntm",
      exchanges(6).trimEnd(),
      "dm -1\nrs 36ff000e7a0000a46b0100\ndm -1\nas -1 1 01\ndm -1\nds -2",
    ),
  },
  {
    name: "A line that is refused",
    about: `Line 30 asks for the slave's frame 40 back, and it sent fewer. The line is refused, and what came before it was run.`,
    text: running() + lines("ds -1", "dm -1", "ds -1", "dm -1", "dm -40", "ds -1"),
  },
  {
    name: "The schedule of a number: 7",
    about: `500 events that are drawn from the number 7, as the command “bulk” draws them: frames late, altered and lost, ticks, puts, resets.
Choose another number beside the examples.`,
    text: scheduleOf(7, 500),
  },
];
