"""The command confscript-etcd, which carries out membership changes on a running etcd cluster.

    arguments   the command line
    guide       what --help says below the options
    commands    replace, add, remove, carry-out: what their arguments ask for
    request     what the operator asks for, and the task that carries it out
    servers     how a server is named: NAME=URL, and a member by its name or its id
    task        what one run does: steps, new servers, which servers fail
    plan        the JSON lines of a plan, and the call of etcd's server for each
    refusals    what is refused before a change
    running     a run: it plans, shows, asks, and carries out
    carrying    taking the steps of a task, one after another
    deciding    what to do next: the mode `confscript next`, asked with what is seen of the cluster
    settings    the variables with which a new server joins, and the files for them
    starting    the command that starts a new server
    snapshot    the snapshot before the first change
    asking      asking the operator
    dry_run     the calls that would change the cluster
    status      the command status
    onlooker    a cluster as status looks at it
    outage      what status shows when nothing can be written or reached
    nagios      the line of a plugin for Nagios
    table       how a plan and the members are shown
    cluster     a cluster, as etcdctl shows it
    view        what is seen of a cluster at one moment: who answers, who leads, who hears whom
    metrics     what members report of their peers at one moment
    reports     what they report over time, and who is up by that
    steady      for how long the cluster has been well
    etcdctl     running etcdctl
    own_list    the list of members that a server has itself
    reach       why nothing is answered at a URL
    record      what runs removed
    lock        one run at a time
    reasons     why a run stops or waits
    output      what a run prints
    sizes       sizes in bytes, as they are shown

Nothing is kept of how far a run came. What is done is seen in the list of members, so the same command again carries
on. Only the id of each server that is removed is recorded, since a server that is not listed may also be a mistyped one.
"""
