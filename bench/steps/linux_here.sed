# Makes linux_here.c of the functions of Linux: RULE has each rule that differs and the rule of this project.
/^struct pie_sched_data/,/^};/d
/^void pie_process_dequeue/,/^}/d
/^bool pie_drop_early/,/^}/{
    s/(vars->burst_time > 0)/(RULE(BURST, vars->burst_time > 0, here->control.burst > 0))/
    s/(vars->qdelay < params->target \/ 2)/RULE(LAST_DELAY, vars->qdelay < params->target \/ 2, 2 * here->control.old_delay < here->params.target)/
    s/(backlog < 2 \* mtu)/(RULE(SMALL, backlog < 2 * mtu, backlog <= 2 * here->params.mean_pkt))/
    s/(vars->accu_prob >= (MAX_PROB \/ 2) \* 17)/(vars->accu_prob >= (MAX_PROB \/ 2) * 17 \&\& RULE(STAYS, true, forget(vars)))/
}
/^static int pie_qdisc_enqueue/,/^}/{
    s/qdisc_qlen(sch) >= sch->limit/qdisc_qlen(sch) >= sch->limit || RULE(LIMIT, false, here->bytes + skb->len > here->params.limit_bytes)/
    s/(q->vars.prob <= MAX_PROB \/ 10)/RULE(AT_TEN, q->vars.prob <= MAX_PROB \/ 10, here->control.prob < here->params.mark_ecnth)/
}
/^void pie_calculate_probability/,/^}/{
    s/qdelay == 0 && backlog != 0/RULE(HOLDS, qdelay == 0 \&\& backlog != 0, false)/
    s/qdelay > (PSCHED_NS2TICKS(250 \* NSEC_PER_MSEC))/RULE(FAR, qdelay > (PSCHED_NS2TICKS(250 * NSEC_PER_MSEC)), false)/
    s/(vars->prob < oldprob)/(vars->prob < oldprob || RULE(BOUND, false, vars->prob > MAX_PROB))/
    s/qdelay == 0 && qdelay_old == 0 && update_prob/RULE(ZERO, qdelay == 0 \&\& qdelay_old == 0, decays_here) \&\& update_prob/
    s/vars->prob \/ 64/vars->prob \/ RULE(DECAY, 64, 50)/
    s/pie_vars_init(vars);/{ u64 sum = vars->accu_prob; pie_vars_init(vars); vars->accu_prob = RULE(CALM, 0, sum); }/
}
