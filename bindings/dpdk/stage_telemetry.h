/* The stages of this process in DPDK's telemetry, for dpdk-telemetry.py and other clients of its socket:
 *
 *   /pie/list                           the stages, by their names, in the order of their numbers
 *   /pie/stats,0                        the results of pie_stage_read for stage 0
 *   /pie/params,0                       its parameters in force, in the units of pie.h
 *   /pie/set,0,target=20ms,alpha=125    sets parameters by the same names, all of them or none; returns them all
 *
 * A number is in the parameter's own unit; a time or a size may have a unit, as tc has them. pie_stage_create and pie_stage_free call these. */
#ifndef STAGE_TELEMETRY_H
#define STAGE_TELEMETRY_H

#define STAGE_TELEMETRY_MOST 64 /* stages; further ones are not listed */

struct pie_stage;

/* Lists a stage, under the lowest free number. */
void stage_telemetry_add(struct pie_stage *stage, const char *name);

/* Removes a stage from the list, once no reader uses it any more. */
void stage_telemetry_remove(const struct pie_stage *stage);

#endif
