/* with-tables steady|changing < STREAM > STREAM: a stream of one program, as ffmpeg and GStreamer write it, with what a broadcaster has beside pictures and
 * sound, all of it made by biTStream's headers (Debian: libbitstream-dev): the PMT names two more PIDs, of splice information (ANSI/SCTE 35) and of private
 * sections (an application information table of ETSI TS 102 809), and after each PAT come a NIT of the actual network, the present and the following event, the
 * time, and a section of each of the two PIDs. With `changing` every second section of splice information is another one.
 *
 * cc -o with-tables with-tables.c */
#include <stdbool.h>
#include <stdint.h>
#include <stdio.h>
#include <string.h>
#include <time.h>

#include <bitstream/dvb/si.h>
#include <bitstream/mpeg/psi.h>
#include <bitstream/mpeg/ts.h>
#include <bitstream/scte/35.h>

enum { SPLICE_PID = 0x1F0, APPLICATION_PID = 0x1F1, NETWORK_PID = 0x10, EVENT_PID = 0x12, TIME_PID = 0x14, PIDS = 8192 };
enum { SPLICE_TYPE = 0x86, PRIVATE_TYPE = 0x05, NETWORK = 0x3001, ORIGINAL_NETWORK = 0xFF01 /* as in the SDT of ffmpeg */ };
static const time_t BEGIN = 1793048400; /* 2026-10-26T21:00:00 */

static uint8_t counters[PIDS];

/* a section in packets of its PID */
static void put(uint16_t pid, const uint8_t *section)
{
    uint8_t packet[TS_SIZE];
    uint16_t done = 0, size = psi_get_length(section) + PSI_HEADER_SIZE;
    while (done < size) {
        uint8_t filled = 0;
        psi_split_section(packet, &filled, section, &done);
        ts_set_pid(packet, pid);
        ts_set_cc(packet, counters[pid]);
        counters[pid] = (counters[pid] + 1) & 15;
        psi_split_end(packet, &filled);
        fwrite(packet, 1, TS_SIZE, stdout);
    }
}

static void put_network(uint16_t stream)
{
    static uint8_t nit[PSI_MAX_SIZE + PSI_HEADER_SIZE];
    static const char name[] = "Example network";
    nit_init(nit, true);
    nit_set_length(nit, PSI_MAX_SIZE - PSI_HEADER_SIZE);
    nit_set_nid(nit, NETWORK);
    psi_set_version(nit, 3);
    psi_set_current(nit);
    psi_set_section(nit, 0);
    psi_set_lastsection(nit, 0);
    nit_set_desclength(nit, 2 + sizeof name - 1);
    uint8_t *descriptor = descs_get_desc(nit_get_descs(nit), 0);
    desc40_init(descriptor);
    desc40_set_networkname(descriptor, (const uint8_t *)name, sizeof name - 1);
    uint8_t *loop = nit_get_header2(nit);
    nith_init(loop);
    nith_set_tslength(loop, NIT_TS_SIZE);
    uint8_t *entry = nit_get_ts(nit, 0);
    nitn_init(entry);
    nitn_set_tsid(entry, stream);
    nitn_set_onid(entry, ORIGINAL_NETWORK);
    nitn_set_desclength(entry, 0);
    nit_set_length(nit, entry + NIT_TS_SIZE - nit - NIT_HEADER_SIZE);
    psi_set_crc(nit);
    put(NETWORK_PID, nit);
}

/* event number 0, the present one, or 1, which follows */
static void put_event(uint16_t stream, uint16_t program, uint8_t number)
{
    static uint8_t eit[PSI_PRIVATE_MAX_SIZE + PSI_HEADER_SIZE];
    static const char *const names[] = {"The news", "A film"};
    static const char *const texts[] = {"Of the day", "Of the week"};
    eit_init(eit, true);
    eit_set_length(eit, PSI_PRIVATE_MAX_SIZE - EIT_HEADER_SIZE);
    eit_set_sid(eit, program);
    psi_set_version(eit, 1);
    psi_set_current(eit);
    psi_set_section(eit, number);
    psi_set_lastsection(eit, 1);
    eit_set_tsid(eit, stream);
    eit_set_onid(eit, ORIGINAL_NETWORK);
    eit_set_segment_last_sec_number(eit, 1);
    eit_set_last_table_id(eit, EIT_TABLE_ID_PF_ACTUAL);
    uint8_t *event = eit_get_event(eit, 0);
    eitn_init(event);
    eitn_set_event_id(event, 100 + number);
    eitn_set_start_time(event, dvb_time_encode_UTC(BEGIN + 1800 * number));
    eitn_set_duration_bcd(event, dvb_time_encode_duration(1800));
    eitn_set_running(event, number ? 1 : 4);
    eitn_set_desclength(event, DESCS_MAX_SIZE);
    uint8_t *descriptor = descs_get_desc(eitn_get_descs(event), 0);
    desc4d_init(descriptor);
    desc4d_set_lang(descriptor, (const uint8_t *)"eng");
    desc4d_set_event_name(descriptor, (const uint8_t *)names[number], strlen(names[number]));
    desc4d_set_text(descriptor, (const uint8_t *)texts[number], strlen(texts[number]));
    desc4d_set_length(descriptor);
    eitn_set_desclength(event, DESC_HEADER_SIZE + desc_get_length(descriptor));
    eit_set_length(eit, EIT_EVENT_SIZE + eitn_get_desclength(event));
    psi_set_crc(eit);
    put(EVENT_PID, eit);
}

static void put_time(unsigned seconds)
{
    uint8_t tdt[TDT_HEADER_SIZE];
    tdt_init(tdt);
    tdt_set_utc(tdt, dvb_time_encode_UTC(BEGIN + seconds));
    put(TIME_PID, tdt);
}

/* splice_null, or where an event is given a splice_insert out of the network at once */
static void put_splice(unsigned event)
{
    static uint8_t section[PSI_PRIVATE_MAX_SIZE + PSI_HEADER_SIZE];
    psi_set_length(section, PSI_PRIVATE_MAX_SIZE);
    if (event) {
        scte35_insert_init(section, SCTE35_INSERT_HEADER2_SIZE + SCTE35_INSERT_FOOTER_SIZE);
        scte35_insert_set_cancel(section, false);
        scte35_insert_set_event_id(section, event);
        scte35_insert_set_out_of_network(section, true);
        scte35_insert_set_program_splice(section, true);
        scte35_insert_set_duration(section, false);
        scte35_insert_set_splice_immediate(section, true);
        scte35_insert_set_unique_program_id(section, 1);
        scte35_insert_set_avail_num(section, 0);
        scte35_insert_set_avails_expected(section, 0);
    } else
        scte35_null_init(section);
    scte35_set_pts_adjustment(section, 0);
    scte35_set_desclength(section, 0);
    psi_set_length(section, scte35_get_descl(section) + PSI_CRC_SIZE - section - PSI_HEADER_SIZE);
    psi_set_crc(section);
    put(SPLICE_PID, section);
}

/* an application information table without applications */
static void put_applications(void)
{
    uint8_t section[] = {0x74, 0, 0, 0, 0x10, 0, 0, 0, 0xF0, 0, 0xF0, 0, 0, 0, 0, 0};
    psi_init(section, true);
    psi_set_length(section, sizeof section - PSI_HEADER_SIZE);
    psi_set_tableidext(section, 0x0010);
    psi_set_version(section, 0);
    psi_set_current(section);
    psi_set_section(section, 0);
    psi_set_lastsection(section, 0);
    psi_set_crc(section);
    put(APPLICATION_PID, section);
}

/* the map of the input, with two more entries */
static void put_map(uint16_t pid, const uint8_t *old)
{
    static uint8_t map[PSI_MAX_SIZE + PSI_HEADER_SIZE];
    uint16_t end = psi_get_length(old) + PSI_HEADER_SIZE - PSI_CRC_SIZE;
    memcpy(map, old, end);
    const struct { uint8_t type; uint16_t pid; uint8_t tag; } entries[] = {{SPLICE_TYPE, SPLICE_PID, 0x05}, {PRIVATE_TYPE, APPLICATION_PID, 0x6F}};
    for (unsigned i = 0; i < 2; i++) {
        uint8_t *entry = map + end;
        pmtn_init(entry);
        pmtn_set_streamtype(entry, entries[i].type);
        pmtn_set_pid(entry, entries[i].pid);
        uint8_t size = entries[i].tag == 0x05 ? DESC05_HEADER_SIZE : DESC_HEADER_SIZE + 3;
        pmtn_set_desclength(entry, size);
        uint8_t *descriptor = descs_get_desc(pmtn_get_descs(entry), 0);
        if (entries[i].tag == 0x05) {
            desc05_init(descriptor);
            desc05_set_identifier(descriptor, (const uint8_t *)"CUEI");
        } else
            memcpy(descriptor, "\x6F\x03\x80\x10\xE0", 5); /* application_signalling_descriptor: HbbTV, version 0 */
        end += PMT_ES_SIZE + size;
    }
    psi_set_length(map, end + PSI_CRC_SIZE - PSI_HEADER_SIZE);
    psi_set_crc(map);
    put(pid, map);
}

int main(int count, char **words)
{
    bool changing = count == 2 && !strcmp(words[1], "changing");
    if (count != 2 || (!changing && strcmp(words[1], "steady"))) {
        fprintf(stderr, "usage: with-tables steady|changing < STREAM > STREAM\n");
        return 2;
    }
    uint8_t packet[TS_SIZE];
    uint16_t map_pid = 0, stream = 0, program = 0;
    unsigned round = 0;
    while (fread(packet, 1, TS_SIZE, stdin) == TS_SIZE) {
        uint16_t pid = ts_get_pid(packet);
        const uint8_t *section = ts_get_unitstart(packet) && ts_has_payload(packet) ? ts_section(packet) : packet;
        if (map_pid && pid == map_pid) {
            put_map(pid, section);
            continue;
        }
        fwrite(packet, 1, TS_SIZE, stdout);
        if (pid != PAT_PID)
            continue;
        stream = pat_get_tsid(section);
        for (uint8_t i = 0; pat_get_program((uint8_t *)section, i); i++) {
            program = patn_get_program(pat_get_program((uint8_t *)section, i));
            map_pid = patn_get_pid(pat_get_program((uint8_t *)section, i));
            if (program)
                break;
        }
        put_network(stream);
        put_event(stream, program, 0);
        put_event(stream, program, 1);
        put_time(round / 10);
        put_splice(changing && round % 2 ? round : 0);
        put_applications();
        round++;
    }
    return 0;
}
