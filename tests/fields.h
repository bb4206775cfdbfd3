/* The structs of include/gremolunde.h, each with its size, and its fields in the order of the header, each
 * with its place and its size. Define STRUCT(type, size) and FIELD(type, name, place, size), then include
 * this. */

STRUCT(gremolunde_loader, 24)
FIELD(gremolunde_loader, groups, 0, 8)
FIELD(gremolunde_loader, added, 8, 8)
FIELD(gremolunde_loader, key, 16, 4)
FIELD(gremolunde_loader, condition, 20, 1)
FIELD(gremolunde_loader, read, 21, 1)
FIELD(gremolunde_loader, opened, 22, 1)
FIELD(gremolunde_loader, added_read, 23, 1)

STRUCT(gremolunde_receiver, 272)
FIELD(gremolunde_receiver, bytes, 0, 259)
FIELD(gremolunde_receiver, length, 264, 8)

STRUCT(gremolunde_port, 296)
FIELD(gremolunde_port, loader, 0, 24)
FIELD(gremolunde_port, receiver, 24, 272)

STRUCT(gremolunde_hex, 20)
FIELD(gremolunde_hex, board, 0, 4)
FIELD(gremolunde_hex, rules, 4, 4)
FIELD(gremolunde_hex, linear, 8, 4)
FIELD(gremolunde_hex, segment, 12, 4)
FIELD(gremolunde_hex, segmented, 16, 1)
FIELD(gremolunde_hex, ended, 17, 1)
FIELD(gremolunde_hex, taken, 18, 1)

STRUCT(gremolunde_session, 36)
FIELD(gremolunde_session, board, 0, 4)
FIELD(gremolunde_session, run, 4, 4)
FIELD(gremolunde_session, phase, 8, 4)
FIELD(gremolunde_session, page, 12, 4)
FIELD(gremolunde_session, address, 16, 4)
FIELD(gremolunde_session, outcome, 20, 4)
FIELD(gremolunde_session, acknowledged, 24, 4)
FIELD(gremolunde_session, total, 28, 4)
FIELD(gremolunde_session, named, 32, 4)

STRUCT(gremolunde_plain, 28)
FIELD(gremolunde_plain, board, 0, 4)
FIELD(gremolunde_plain, run, 4, 4)
FIELD(gremolunde_plain, stage, 8, 4)
FIELD(gremolunde_plain, outcome, 12, 4)
FIELD(gremolunde_plain, acknowledged, 16, 4)
FIELD(gremolunde_plain, total, 20, 4)
FIELD(gremolunde_plain, named, 24, 4)

STRUCT(gremolunde_station, 24)
FIELD(gremolunde_station, version, 0, 4)
FIELD(gremolunde_station, station, 4, 4)
FIELD(gremolunde_station, run, 8, 4)
FIELD(gremolunde_station, rules, 12, 4)
FIELD(gremolunde_station, first, 16, 4)
FIELD(gremolunde_station, last, 20, 4)

STRUCT(gremolunde_length, 16)
FIELD(gremolunde_length, number, 0, 4)
FIELD(gremolunde_length, length, 8, 8)

STRUCT(gremolunde_parts, 32)
FIELD(gremolunde_parts, number, 0, 4)
FIELD(gremolunde_parts, command, 4, 1)
FIELD(gremolunde_parts, address, 8, 4)
FIELD(gremolunde_parts, place, 16, 8)
FIELD(gremolunde_parts, length, 24, 8)

STRUCT(gremolunde_taken, 40)
FIELD(gremolunde_taken, number, 0, 4)
FIELD(gremolunde_taken, answered, 8, 8)
FIELD(gremolunde_taken, loader, 16, 24)

STRUCT(gremolunde_received, 288)
FIELD(gremolunde_received, packet, 0, 8)
FIELD(gremolunde_received, taken, 8, 8)
FIELD(gremolunde_received, receiver, 16, 272)

STRUCT(gremolunde_port_taken, 320)
FIELD(gremolunde_port_taken, number, 0, 4)
FIELD(gremolunde_port_taken, taken, 8, 8)
FIELD(gremolunde_port_taken, answered, 16, 8)
FIELD(gremolunde_port_taken, port, 24, 296)

STRUCT(gremolunde_hex_read, 40)
FIELD(gremolunde_hex_read, number, 0, 4)
FIELD(gremolunde_hex_read, column, 8, 8)
FIELD(gremolunde_hex_read, reader, 16, 20)

STRUCT(gremolunde_hex_written, 24)
FIELD(gremolunde_hex_written, number, 0, 4)
FIELD(gremolunde_hex_written, next, 4, 4)
FIELD(gremolunde_hex_written, upper, 8, 2)
FIELD(gremolunde_hex_written, length, 16, 8)

STRUCT(gremolunde_session_stepped, 56)
FIELD(gremolunde_session_stepped, number, 0, 4)
FIELD(gremolunde_session_stepped, length, 8, 8)
FIELD(gremolunde_session_stepped, session, 16, 36)

STRUCT(gremolunde_plain_stepped, 48)
FIELD(gremolunde_plain_stepped, number, 0, 4)
FIELD(gremolunde_plain_stepped, length, 8, 8)
FIELD(gremolunde_plain_stepped, plain, 16, 28)

STRUCT(gremolunde_session_mark, 8)
FIELD(gremolunde_session_mark, number, 0, 4)
FIELD(gremolunde_session_mark, proved, 4, 1)

STRUCT(gremolunde_log, 20)
FIELD(gremolunde_log, number, 0, 4)
FIELD(gremolunde_log, version, 4, 1)
FIELD(gremolunde_log, outcome, 5, 1)
FIELD(gremolunde_log, acknowledged, 8, 4)
FIELD(gremolunde_log, total, 12, 4)
FIELD(gremolunde_log, bytes, 16, 4)

STRUCT(gremolunde_station_answer, 28)
FIELD(gremolunde_station_answer, number, 0, 4)
FIELD(gremolunde_station_answer, station, 4, 24)

STRUCT(gremolunde_station_stored, 8)
FIELD(gremolunde_station_stored, number, 0, 4)
FIELD(gremolunde_station_stored, place, 4, 4)

STRUCT(gremolunde_station_place, 8)
FIELD(gremolunde_station_place, number, 0, 4)
FIELD(gremolunde_station_place, condition, 4, 4)

STRUCT(gremolunde_done, 4)
FIELD(gremolunde_done, number, 0, 4)

STRUCT(gremolunde_rehearsal, 72)
FIELD(gremolunde_rehearsal, number, 0, 4)
FIELD(gremolunde_rehearsal, loader, 8, 24)
FIELD(gremolunde_rehearsal, session, 32, 36)

#undef STRUCT
#undef FIELD
