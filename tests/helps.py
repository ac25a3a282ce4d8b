"""The texts of help."""

HELP = b"""A bench for a driver of the Intel 82540EM and a model of that adapter

Usage: nicbench <COMMAND>

Commands:
  pass   Send the frames of a trace through a receive filter and a ring
  run    Run a scenario: hosts on wires, step by step
  show   List the frames of a trace, one per line
  serve  Serve an adapter and its memory to a driver, one request per line
  drive  Run the driver on an adapter that another program models
  help   Print this message or the help of the given subcommand(s)

Options:
  -h, --help     Print help
  -V, --version  Print version

In this example one host sends a frame to another, step by step, and the received frame is listed.
Run it from the top of the repository:

  $ mkdir out
  $ ./nicbench run examples/first-frame.scenario out
  a accepted 1 put 1 reached 0 stored 0 missed 0 exact given 0 unclaimed 0
  b accepted 0 put 0 reached 1 stored 1 missed 0 exact given 1 unclaimed 0
  $ ./nicbench show out/b.0.pcap
  0 60 02:00:00:00:00:02 02:00:00:00:00:01 0800
  frames 1 skipped 0 cut no

Exit status: 0 success, 1 a trace, a scenario, an image, a schedule or an answer is invalid, or
drive ended too early, 2 usage error, --help or --version, 3 a file failed, 4 out of memory. If the
status is 1, 3 or 4, nicbench prints 'nicbench: CODE NAME' on standard error, or 'nicbench: line N:
CODE NAME' if a line of a scenario is invalid. Lines with an explanation may follow, such as the
path of the file. IN is any input: of pass and drive, the TRACE of show, and the SCENARIO of run
with each FILE that it feeds. If IN is - (not for drive), it is standard input, which can be read
only once. Standard input and named pipes are read to their end first, up to 1 GiB. OUT is any
output: of pass and drive, each file in the OUTDIR of run, and its FILE of --events. PATH is any of
these paths. Codes E40 to E56 come from run only (E46 from drive, too): nicbench run --help. For
E57, E66, E67 and E68 of serve: nicbench serve --help

  E57 Memory    Out of memory elsewhere than for E45, E47 and E65. Free some, or split IN
  E58 Image     The file of --image of serve doesn't have 128 bytes. Name another file
  E59 Answer    A line isn't the answer to a request of drive. Check the program that answers
  E60 Header    IN has fewer than 24 bytes, so it isn't a trace. Name another file, or check the
                program that writes into the pipe
  E61 Magic     IN isn't a pcap file. Convert a pcapng file: tools/to_pcap IN OUT
  E62 Version   IN isn't a pcap file of version 2.4. Convert it: tools/to_pcap IN OUT
  E63 LinkType  IN isn't a trace of Ethernet frames. Capture it at an Ethernet interface
  E64 Record    A packet of IN claims more than 262,144 bytes, so IN is damaged. Capture it again
  E65 Memory    Out of memory while IN was read. Free some, or split IN:
                editcap -F pcap -c 100000 IN OUT
  E66 Read      IN could not be read. Name a file, not a folder, or copy it to another disk
  E67 Write     OUT or standard output could not be written. Free space there
  E68 Open      PATH couldn't be opened or created, or is a device. Check the path and permissions;
                OUTDIR must exist. Copy a part of a device to a file: head -c SIZE DEVICE
  E69 Fewer     drive ended before all frames of IN were sent and N were received. Check the
                adapter, or use a larger --idle
  E70 Schedule  The file of --schedule of serve isn't a schedule, or is for other options. Correct
                it, or use the options in its first line
  E71 Unmet     Deviations of the schedule of serve weren't met. Standard error lists them
  E72 Pipe      Standard input or a pipe has more than 1 GiB. Copy it to a file first, and name the
                file
  E73 SameFile  FILE is also SCENARIO, a trace that the run feeds, or another file that it writes.
                Name another for --events, or another OUTDIR
"""

PASS_HELP = b"""Send the frames of a trace through a receive filter and a ring

Usage: nicbench pass [OPTIONS] <IN> <OUT>

Arguments:
  <IN>   The trace to read, a pcap file, or - for standard input
  <OUT>  The trace to write, a pcap file, or - for standard output

Options:
      --address <A>  Let frames for this address pass, such as 02:00:00:00:00:01
      --group <G>    Let frames for this group pass, such as 01:00:5e:00:00:01
      --vlan <N>     Let tagged frames pass only if they are of this VLAN, 0 to 4095, such as 5
      --nanos        Write the same timestamps in nanoseconds, in place of microseconds
  -h, --help         Print help

Frames for the broadcast address also pass. Without --address and --group, frames for every address
pass. Times are not kept: the timestamp of a frame in OUT is its number in IN, from 0, as a number
of microseconds, also with --nanos: frame 7 is at 0.000007 or 0.000007000 seconds. All of IN is read
before OUT is written, so both may be the same file: its frames are replaced. IN may be standard
input: tcpdump -w - | nicbench pass - OUT writes OUT when tcpdump ends. If OUT is -, the trace goes
to standard output, and the line of counts to standard error.

A file OUT gets all new frames at once: they are written beside it, into OUT.part0, and then this
file is renamed. Until then OUT doesn't change, even after an error or a kill. This doesn't hold for
a link, a file with several names, a device or a pipe, or if no such file can be made: then OUT is
overwritten.

Run this example from the top of the repository:

  $ ./nicbench pass --group 01:00:5e:00:00:01 examples/groups.pcap out.pcap
  read 5 skipped 0 illegal 0 filtered 2 written 3 cut no

  read      frames in IN: packets that were captured whole
  skipped   packets that were captured in part
  illegal   frames below 14 or above 1,518 bytes
  filtered  frames that the filter dropped
  written   frames in OUT
  cut       whether IN ends inside a packet

If pass fails, it prints 'nicbench: CODE NAME' on standard error. What each code means, and what to
do: nicbench --help
"""

RUN_HELP = b"""Run a scenario: hosts on wires, step by step

Usage: nicbench run [OPTIONS] <SCENARIO> <OUTDIR>

Arguments:
  <SCENARIO>  The scenario to run, a text file, or - for standard input
  <OUTDIR>    The folder to write traces into; it must exist

Options:
      --wires          Also write all frames that adapters put on each wire, to OUTDIR/WIRE.pcap
      --nanos          Write the same timestamps in nanoseconds, in place of microseconds
      --events <FILE>  Also write a line for each event to FILE, or to standard output if FILE is -
  -h, --help           Print help

A scenario is a text of lines; spaces or tabs separate words. In this one a host sends a frame of 14
bytes to another, and its adapter pads it to 60:

  host a 02:00:00:00:00:01 w
  host b 02:00:00:00:00:02 w
  socket b all
  # destination, source and type, and no data
  send a 0200000000020200000000010800
  tick txtake:a
  tick txput:a
  tick deliver:b
  tick rxdata:b
  tick rxdone:b
  interrupt b
  recv b 0

First come the lines that set up hosts:

  # TEXT                  a comment
  host NAME ADDRESS WIRE  a host with this Ethernet address at this wire. Options may follow;
                          defaults are in parentheses: rx N and tx N, the number of descriptors in
                          each ring (8); buffers N, the number of receive buffers (16); rxa N, the
                          KB of its receive packet buffer (48), of which a frame takes its length,
                          rounded up to 16 bytes, and 16 bytes more; link N, the ticks of its PHY
                          until its link is up (1), or link never; promiscuous
  group HOST ADDRESS      a multicast group that it has joined from the start: it also receives
                          its frames
  vlan HOST N             a VLAN. Of tagged frames, the host receives only those of the VLANs in its
                          vlan lines; without a vlan line, those of any VLAN
  socket HOST N           a socket for an EtherType, four hexadecimal digits such as 88b5; or 'all',
                          for the frames that no other socket takes. A host's sockets are numbered
                          from 0

Then come the events, numbered from 0:

  send HOST HEX           a call: it sends a frame of these bytes
  recv HOST S             a call: its socket S returns the oldest frame in its queue
  interrupt HOST          a call: its driver handles an interrupt
  reset HOST              a call: its driver resets its adapter. Frames that are still to be sent,
                          and received ones that aren't in a socket's queue yet, are given up
  join HOST ADDRESS       a call: its driver joins a multicast group, and so its adapter stores the
                          frames of this group, too
  leave HOST ADDRESS      a call: its driver leaves a group
  tick TICK               not a call, but a tick: txtake:HOST, txput:HOST, rxdata:HOST or
                          rxdone:HOST is a step of its adapter, deliver:HOST delivers the next frame
                          of its wire, eeprom:HOST and phy:HOST are steps of its EEPROM and PHY, go
                          does nothing
  CALL / TICK TICK ..     ticks inside a call: those before the first go are played before its first
                          access to memory or a register, those up to the next go before its second,
                          and so on
  drain HOST              not a call: all frames that it holds for its sockets are returned, in one
                          event
  feed HOST FILE          for each frame of a trace, the events that send it and deliver it to the
                          sockets of the other hosts at its wire; FILE contains no spaces, or is -
                          for standard input
  auto COUNT START        COUNT random events, up to 1000000; START is the seed

OUTDIR/h.s.pcap is the trace of the frames that socket s of host h returned. With --wires,
OUTDIR/w.pcap is the trace of all frames that adapters put on wire w, also those that no host
received; the files of wires follow those of sockets, in the order in which the host lines first
name the wires. The timestamp of a frame is the number of its event, as a number of microseconds,
also with --nanos: event 7 is at 0.000007 or 0.000007000 seconds. Files that don't exist are
created, empty, before the first event. All files are written after the last event; an existing one
loses its bytes when its first new byte is written. So on an error existing files are unchanged,
unless it is E67: then the files before the one that failed are complete, and those after it are
unchanged. Standard output has a line for each host:

  b accepted 0 put 0 reached 1 stored 1 missed 0 exact given 1 unclaimed 0

The counts are of frames that its sends accepted, that its adapter put on the wire, that reached it,
that it stored, and that it missed because its receive packet buffer was full ('atleast' in place of
'exact' if there may be more); then frames that its sockets returned, and frames that none of its
sockets takes. The line of a host that was reset ends with 'givenup T R off O': resets gave up T
frames that were to be sent and R received ones, and O frames reached it while its receiver was off.
If calls were refused, a line on standard error counts them: sends, joins and leaves, and recvs of
sockets that don't exist. It doesn't count events of auto lines.

With --events, FILE has a line for each event, such as

  6 line 12 interrupt b handled 1 accesses 9 @1 rxdata:b moved @1 rxdone:b done

This is its number and that of its line in the scenario, the call, its answer, the number of its
accesses to memory and registers, and each tick that it played: after @ the number of accesses
before the tick, then its outcome. A frame is shown by its size. If a frame is delivered while the
receiver is off, as in a reset, the outcome is 'off'. The answers:

  ok                a send, a join or a leave was accepted
  ok N              a recv returned a frame of N bytes; or a drain returned N frames
  handled N         an interrupt: the driver took N frames off its receive ring
  notmine           an interrupt: no cause was set that the driver handles
  givenup T R on N  a reset gave up T frames that were to be sent and R received ones, and the
                    receiver was on again after N accesses
  CODE NAME         the call was refused, or its socket's queue is empty, such as E22 RingFull:
                    docs/ERRORS.md

FILE is written after the files in OUTDIR. If it is -, the lines of hosts go to standard error. Each
file that run writes, FILE or in OUTDIR, must be a file of its own, which run doesn't read. This
draws the events as a chart:

  $ tools/run_chart SCENARIO FILE

If run fails, it prints 'nicbench: CODE NAME' on standard error, or 'nicbench: line N: CODE NAME' if
a line is invalid. If existing files in OUTDIR are unchanged, a second line says so:

  E40 Name      The name of a host or a wire isn't 1 to 16 of a-z 0-9 _ -. Choose another
  E41 Ends      A wire has only 1 host, or more than 8. Check the names of wires, or add a host
  E42 Hosts     There is no host, or there are more than 16. Add hosts, or split the scenario
  E43 Address   An address is multicast (its first byte is odd) or another host's. Choose another
  E44 Config    An option of a host is invalid. rx and tx are multiples of 8 from 8 to 4096, buffers
                from rx to 8192, rxa even from 2 to 48, link at least 1; the first byte of a group
                is odd, and a VLAN is at most 4095
  E45 Memory    Out of memory for the hosts. Free some, or use fewer buffers
  E46 Init      An adapter could not be initialized; the reason follows, such as E14 NoLink: its
                link is never up, or only after more than 2000 ticks. Use a smaller link
  E47 Memory    Out of memory during the run. Free some, or split the scenario
  E50 Word      The line's first word isn't in the lists above. Correct it, or put # before it
  E51 Count     There are too few or too many words, or an option twice. Compare with the list above
  E52 Value     A word doesn't have its form: a decimal number, an address, an even number of up to
                8000 hexadecimal digits, a tick, an option. Compare with the list above
  E53 Name      No host above has this name; or the name of a new host is taken; or a host already
                has 8 sockets, 32 groups or 32 VLANs. Use the name of a host above, or remove lines
  E54 Order     An event comes before this line. Move the line up
  E55 Long      The line has more than 8192 bytes. Split it
  E56 Text      The line isn't UTF-8. Save the scenario as UTF-8

A run can also end with E57, E60 to E68, E72 and E73. What each code means: nicbench --help
"""

SHOW_HELP = b"""List the frames of a trace, one per line

Usage: nicbench show <TRACE>

Arguments:
  <TRACE>  The trace to read, a pcap file, or - for standard input

Options:
  -h, --help  Print help

Each line is a frame: its number, from 0, its length in bytes, its destination, its source, and its
EtherType; or 'short' in place of these three if it has fewer than 14 bytes. The last line counts
the frames and the packets that were captured in part, and says whether TRACE ends inside a packet:

  $ ./nicbench show examples/lengths.pcap
  0 14 02:00:00:00:00:02 02:00:00:00:00:01 0800
  1 13 short
  2 1518 02:00:00:00:00:02 02:00:00:00:00:01 0800
  frames 3 skipped 0 cut no

Without TRACE, show reads standard input if that is a pipe, as in 'tools/to_pcap IN | ./nicbench
show'. If show fails, it prints 'nicbench: CODE NAME' on standard error. What each code means, and
what to do: nicbench --help
"""

SERVE_HELP = b"""Serve an adapter and its memory to a driver, one request per line

Usage: nicbench serve [OPTIONS]

Options:
      --memory <BYTES>       Bytes of memory, from address 0, such as 0x100000 [1048576]
      --registers <ADDRESS>  Address of the 131,072 bytes of registers [0xFEB00000]
      --address <A>          The Ethernet address in the EEPROM [02:00:00:00:00:01]
      --image <FILE>         The EEPROM, a file of 128 bytes, low bytes first; not with --address
      --link <N|never>       Ticks of the PHY until the link is up, 1 to 65535 [1]
      --rxa <N>              KB of the receive packet buffer, an even number from 2 to 48 [48]
      --seed <N>             Seed of the random steps of interleave [0]
      --missed <N>           The count of missed frames (MPC) at the start, such as 4294967294 [0]
      --schedule <FILE>      Play this schedule instead of interleaved steps
      --record <FILE>        Store what was played before accesses as a schedule
  -h, --help                 Print help

An Intel 82540EM and the memory of its host: a driver in any language reads and writes registers and
memory through a pipe. A request is a line on standard input. Its answer is a line on standard
output, which is written before the next request is read. This example sets the interrupt mask
(IMS), sets a cause (ICS), and reads the causes (ICR):

  $ printf 'writel 0xFEB000D0 0x80\\nwritel 0xFEB000C8 0x80\\nreadl 0xFEB000C0\\n' | nicbench serve
  OK
  IRQ raise 0
  OK
  IRQ lower 0
  OK 0x0000000000000080

The requests. QEMU's qtest protocol has the first ten lines of this list, too:

  readl ADDR              reads 32 bits; also readb (8), readw (16) and readq (64)
  writel ADDR VALUE       writes 32 bits; also writeb, writew and writeq
  read ADDR SIZE          reads SIZE bytes, at most 65536; b64read ADDR SIZE answers in base64
  write ADDR SIZE 0xHEX   writes SIZE bytes; also b64write ADDR SIZE BASE64
  memset ADDR SIZE VALUE  writes SIZE bytes, all of them VALUE
  inl PORT                reads an I/O port, for PCI configuration; also inb and inw
  outl PORT VALUE         writes an I/O port; also outb and outw
  endianness              little
  clock_step [NS]         settles, and the clock advances by NS nanoseconds; also clock_set NS
  irq_intercept_in PATH   nothing: IRQ lines always come; also irq_intercept_out PATH
  step KIND               a step of the adapter: txtake, txput, rxdata, rxdone, eeprom or phy
  arrive HEX              a frame arrives from the wire
  settle                  all offered frames arrive; then steps in cycles, until a cycle does
                          nothing
  line                    1 if the interrupt line is asserted, else 0
  interleave COUNT        from now on, plays up to COUNT random steps before each access; COUNT is
                          at most 65535, and 0 turns this off
  pace COUNT              from now on, plays up to COUNT cycles of steps after each access and
                          arrival
  wire full, wire free    wire full makes the wire full: the step txput puts no frame, and its
                          outcome is wirefull; wire free makes room again, as there is at the start
  log on, log off         log on prints each step, access and arrival from now on; log off stops
                          this
  log targets             as log on, and the line of an access ends with the name of its target
  events on, events off   events on prints frames on the wire, faults, and arrivals of offered
                          frames, before the answers; events off, as at the start, stops this
  frames, faults          the frames and the faults that came while events were off
  offer HEX               a frame waits: it arrives at the next settle, or before that as a random
                          step
  save, restore           save keeps a copy of the state of the adapter, of memory and of these
                          settings; restore brings the last copy back
  digest                  a number that depends on the adapter and on memory, to see that a state
                          comes back
  enabled                 the kinds of steps that would do something
  choose LIMIT            a number below LIMIT: that of the schedule, or random after interleave,
                          or 0
  target ADDR SIZE        the name that a schedule has for an access of SIZE bytes at ADDR
  rings                   base, length, head and tail of each ring: receive, then transmit

Numbers are decimal, or hexadecimal after 0x. A register is read and written as four bytes, by
readl, writel, read, write or memset. The adapter takes no step by itself: each step is a request,
or random, and the same seed gives the same steps, or it is of a schedule. Lines between a request
and its answer say what happened: 'IRQ raise 0' and 'IRQ lower 0'; after events on, 'frame HEX' for
a frame put on the wire, 'arrived FATE HEX' for an offered frame, and 'fault tx INDEX REASON' or
'fault rx INDEX REASON' for a fault of an engine; and '# ...' while the log is on. If the answer
isn't OK, the request changed nothing. Such an answer is 'FAIL unknown', or 'ERR' and one reason:
count, value, size, address, register, text, long or saved.

At the end of its input the server ends with exit status 0. If it fails, it prints 'nicbench: CODE
NAME' on standard error:

  E57 Memory    Out of memory, status 4. Free some, or reduce --memory
  E58 Image     The file of --image doesn't have 128 bytes, status 1. Name another file
  E66 Read      Standard input or the file of --image or --schedule could not be read, status 3.
                Check where it comes from
  E67 Write     Standard output or the file of --record could not be written, or nobody reads
                standard output any more, status 3. Free space there, or read all answers
  E68 Open      The file of --image or --schedule couldn't be opened or is a device, or that of
                --record couldn't be created, status 3. Check its path
  E70 Schedule  The file of --schedule isn't a schedule, or is for other options, status 1. Correct
                it, or use the options in its first line
  E71 Unmet     Deviations of the schedule weren't met, status 1: standard error lists them
"""

DRIVE_HELP = b"""Run the driver on an adapter that another program models

Usage: nicbench drive [OPTIONS] --send <IN> --receive <OUT>

Options:
      --registers <ADDRESS>  Address of the 131,072 bytes of registers [0xFEB00000]
      --memory <BYTES>       Bytes of memory for the driver, from address 0 [1048576]
      --rx <N>               Descriptors in the receive ring, a multiple of 8 from 8 to 4096 [64]
      --tx <N>               Descriptors in the transmit ring, a multiple of 8 from 8 to 4096 [64]
      --buffers <N>          Receive buffers, from --rx to 8192 [512]
      --expect <N>           Stop after N frames were received; status 1 if fewer were
      --idle <N>             Most calls in a row without a frame received or passed to the driver
      --send <IN>            The trace whose frames are sent, a pcap file
      --receive <OUT>        The trace to write received frames into, a pcap file
  -h, --help                 Print help

The driver initializes the adapter, sends the frames of IN, and writes received frames to OUT. Each
access is a request on standard output, and its answer is read from standard input, in QEMU's qtest
protocol: readl, writel, read or write. The adapter may be QEMU's e1000, that of nicbench serve, or
your own. This script joins drive with QEMU:

  $ examples/emulators/qemu.py

When all frames of IN were passed to the driver, drive ends after N frames were received in all
(--expect), or after N calls of the handler in a row that received no frame (--idle, 1000 by
default). While the transmit ring is full, drive calls the handler, too: after N such calls in a row
(--idle), it sends no more frames, and ends as above. At the end it prints its counts on standard
error:

  sent 10000 illegal 0 received 10000 missed 0 exact

  sent      frames that the driver accepted
  illegal   frames below 14 or above 1,518 bytes
  received  frames in OUT
  missed    frames that the adapter missed ('atleast' in place of 'exact' if there may be more)

If drive fails, it prints 'nicbench: CODE NAME' on standard error. After E46 the reason follows,
such as E15 Config: the size of a ring isn't allowed, or --memory is too small. What each code
means, and what to do: nicbench --help
"""

HELPS = [HELP, PASS_HELP, RUN_HELP, SHOW_HELP, SERVE_HELP, DRIVE_HELP]
