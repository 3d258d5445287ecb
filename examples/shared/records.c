#include "records.h"

bool open_records(struct records *records, FILE *file, uint64_t every, uint64_t moment, const uint64_t *unix_time) {
    unsigned char line[PIE_RESUME_ROOM];
    records->file = NULL;
    records->begun = 0;
    if (file == NULL)
        return true;
    if (pie_open_period(&records->period, every, unix_time != NULL) != PIE_DONE)
        return false;
    if (unix_time != NULL && pie_period_clock(&records->period, moment, *unix_time) != PIE_DONE)
        return false;
    records->file = file;
    size_t count = pie_write_period_header(&records->period, line, sizeof line);
    return fwrite(line, 1, count, records->file) == count && fflush(records->file) == 0;
}

void make_record(struct records *records) {
    records->size = pie_write_period(&records->period, records->line, sizeof records->line);
}

void write_record(struct records *records) {
    fwrite(records->line, 1, records->size, records->file);
    fflush(records->file);
    records->begun = records->period.begun;
}

bool close_records(struct records *records) {
    if (records->file == NULL)
        return true;
    make_record(records);
    write_record(records);
    bool is_written = !ferror(records->file);
    records->file = NULL;
    return is_written;
}
