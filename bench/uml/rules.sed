# Makes Linux's sch_pie.c exchange rules: a bit of the module's parameter `rules` puts this project's rule in place of Linux's, in the order of the enum
# and of RULES in beside.py. The parameter is 0 at first. (bench/steps/linux_here.sed exchanges the same rules outside the kernel.)
/^struct pie_sched_data {/i\
static unsigned int rules;\
module_param(rules, uint, 0644);\
enum { DECAY, SMALL, HOLDS, FAR, LAST_DELAY, BURST, CALM };\
#define RULE(bit, linux_rule, other) (READ_ONCE(rules) >> (bit) & 1 ? (other) : (linux_rule))\

/^bool pie_drop_early/,/^}/{
    s/(vars->qdelay < params->target \/ 2)/(RULE(LAST_DELAY, vars->qdelay, vars->qdelay_old) < params->target \/ 2)/
    s/(backlog < 2 \* mtu)/(RULE(SMALL, backlog < 2 * mtu, backlog <= 2 * 1024))/
}
/^void pie_process_dequeue/,/^}/s/if (vars->burst_time > 0) {/if (RULE(BURST, vars->burst_time > 0, false)) {/
/^void pie_calculate_probability/,/^}/{
    /bool update_prob = true;/a\
\
	if (RULE(BURST, false, vars->burst_time > 0)) {\
		psched_time_t period = PSCHED_NS2TICKS(jiffies_to_nsecs(params->tupdate));\
\
		vars->burst_time -= min(vars->burst_time, period);\
	}
    s/qdelay == 0 && backlog != 0/RULE(HOLDS, qdelay == 0 \&\& backlog != 0, false)/
    s/qdelay > (PSCHED_NS2TICKS(250 \* NSEC_PER_MSEC))/RULE(FAR, qdelay > (PSCHED_NS2TICKS(250 * NSEC_PER_MSEC)), false)/
    s/vars->prob \/ 64/vars->prob \/ RULE(DECAY, 64, 50)/
    s/pie_vars_init(vars);/{ u64 sum = vars->accu_prob; pie_vars_init(vars); vars->accu_prob = RULE(CALM, 0, sum); }/
}
