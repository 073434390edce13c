"""What people use the engine with: the parts of bin/console, bin/program, bin/reading and bin/soak. It stands in front of the proved programs, and what it tells of a drive they have said.

Shared: trouble (what goes wrong, and statuses), build (the programs, proved and built first), process and engine (a drive of the program replay), reasons (why a string gets N),
files (program files and images), instructions, ranges, saving, progress, together (tests two at a time).

bin/console: terminal (at a prompt), console_pipe (in a pipe), console_help and console_codes (what ? prints).

bin/program: checks (check), images (image), listings (show), differences (diff), simulation (run) with rig (drive, clock, board and inputs together), board (orders become steps),
schedule (what comes from outside), table, trace and thinning (what a picture needs), picture; traced (trace: the picture of what a gateway has traced).

bin/reading: reading (the 165 requests and their file), taking (take) with lines, played and asking, comparing (compare) with descriptions, rebuilding (program, calls) with restoring (the calls
that bring a fresh drive to a reading).

bin/soak and tests/service: service_frames (lists and frames of docs/PROTOCOL.md), service_build (the gateway and the library, built first), service_strings (random strings of clients),
service_disk (disks that fail). In simulated time: service_soak with service_line (a line with clients and faults), service_drive (a drive with clock, board and memory file) and service_pair
(the engine beside the second implementation). In real time: service_realtime with service_realtime_faults, service_gateway (a gateway as a process) and service_model (what its drives must
answer).
"""
