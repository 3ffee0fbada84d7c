complete -c dates -n __fish_use_subcommand -a add -d 'move a day or a date-time by each span in turn'
complete -c dates -n '__fish_seen_subcommand_from add' -l weekend -r -a 'mon tue wed thu fri sat sun none '
complete -c dates -n '__fish_seen_subcommand_from add' -l calendar -r -a 'us-federal target england fedwire nyse germany france japan '
complete -c dates -n '__fish_seen_subcommand_from add' -l holidays -r -a ''
complete -c dates -n '__fish_seen_subcommand_from add' -l zone -r -a ''
complete -c dates -n '__fish_seen_subcommand_from add' -l now -r -a ''
complete -c dates -n '__fish_seen_subcommand_from add' -l unix
complete -c dates -n '__fish_seen_subcommand_from add' -l parse -r -a ''
complete -c dates -n '__fish_seen_subcommand_from add' -l order -r -a 'dmy mdy '
complete -c dates -n '__fish_seen_subcommand_from add' -l format -r -a ''
complete -c dates -n '__fish_seen_subcommand_from add' -l long
complete -c dates -n '__fish_seen_subcommand_from add' -l within
complete -c dates -n '__fish_seen_subcommand_from add' -l field -r -a ''
complete -c dates -n '__fish_seen_subcommand_from add' -l separator -r -a 'comma tab semicolon space '
complete -c dates -n '__fish_seen_subcommand_from add' -l json
complete -c dates -n '__fish_seen_subcommand_from add' -l help
complete -c dates -n __fish_use_subcommand -a diff -d 'print the days or whole units between two days'
complete -c dates -n '__fish_seen_subcommand_from diff' -l weekend -r -a 'mon tue wed thu fri sat sun none '
complete -c dates -n '__fish_seen_subcommand_from diff' -l calendar -r -a 'us-federal target england fedwire nyse germany france japan '
complete -c dates -n '__fish_seen_subcommand_from diff' -l holidays -r -a ''
complete -c dates -n '__fish_seen_subcommand_from diff' -l zone -r -a ''
complete -c dates -n '__fish_seen_subcommand_from diff' -l now -r -a ''
complete -c dates -n '__fish_seen_subcommand_from diff' -l unix
complete -c dates -n '__fish_seen_subcommand_from diff' -l parse -r -a ''
complete -c dates -n '__fish_seen_subcommand_from diff' -l order -r -a 'dmy mdy '
complete -c dates -n '__fish_seen_subcommand_from diff' -l json
complete -c dates -n '__fish_seen_subcommand_from diff' -l help
complete -c dates -n __fish_use_subcommand -a seq -d 'print the days or date-times from one to another'
complete -c dates -n '__fish_seen_subcommand_from seq' -l skip -r -a ''
complete -c dates -n '__fish_seen_subcommand_from seq' -l count -r -a ''
complete -c dates -n '__fish_seen_subcommand_from seq' -l weekend -r -a 'mon tue wed thu fri sat sun none '
complete -c dates -n '__fish_seen_subcommand_from seq' -l calendar -r -a 'us-federal target england fedwire nyse germany france japan '
complete -c dates -n '__fish_seen_subcommand_from seq' -l holidays -r -a ''
complete -c dates -n '__fish_seen_subcommand_from seq' -l now -r -a ''
complete -c dates -n '__fish_seen_subcommand_from seq' -l parse -r -a ''
complete -c dates -n '__fish_seen_subcommand_from seq' -l order -r -a 'dmy mdy '
complete -c dates -n '__fish_seen_subcommand_from seq' -l format -r -a ''
complete -c dates -n '__fish_seen_subcommand_from seq' -l long
complete -c dates -n '__fish_seen_subcommand_from seq' -l json
complete -c dates -n '__fish_seen_subcommand_from seq' -l help
complete -c dates -n __fish_use_subcommand -a week -d 'print the first and the last day of a week'
complete -c dates -n '__fish_seen_subcommand_from week' -l now -r -a ''
complete -c dates -n '__fish_seen_subcommand_from week' -l parse -r -a ''
complete -c dates -n '__fish_seen_subcommand_from week' -l order -r -a 'dmy mdy '
complete -c dates -n '__fish_seen_subcommand_from week' -l format -r -a ''
complete -c dates -n '__fish_seen_subcommand_from week' -l long
complete -c dates -n '__fish_seen_subcommand_from week' -l json
complete -c dates -n '__fish_seen_subcommand_from week' -l help
complete -c dates -n __fish_use_subcommand -a weekday -d 'print the weekday of a day'
complete -c dates -n '__fish_seen_subcommand_from weekday' -l now -r -a ''
complete -c dates -n '__fish_seen_subcommand_from weekday' -l parse -r -a ''
complete -c dates -n '__fish_seen_subcommand_from weekday' -l order -r -a 'dmy mdy '
complete -c dates -n '__fish_seen_subcommand_from weekday' -l json
complete -c dates -n '__fish_seen_subcommand_from weekday' -l help
complete -c dates -n __fish_use_subcommand -a first -d 'print the first day of the week, month, quarter or year'
complete -c dates -n '__fish_seen_subcommand_from first' -l now -r -a ''
complete -c dates -n '__fish_seen_subcommand_from first' -l parse -r -a ''
complete -c dates -n '__fish_seen_subcommand_from first' -l order -r -a 'dmy mdy '
complete -c dates -n '__fish_seen_subcommand_from first' -l format -r -a ''
complete -c dates -n '__fish_seen_subcommand_from first' -l long
complete -c dates -n '__fish_seen_subcommand_from first' -l within
complete -c dates -n '__fish_seen_subcommand_from first' -l field -r -a ''
complete -c dates -n '__fish_seen_subcommand_from first' -l separator -r -a 'comma tab semicolon space '
complete -c dates -n '__fish_seen_subcommand_from first' -l json
complete -c dates -n '__fish_seen_subcommand_from first' -l help
complete -c dates -n __fish_use_subcommand -a last -d 'print the last day of the week, month, quarter or year'
complete -c dates -n '__fish_seen_subcommand_from last' -l now -r -a ''
complete -c dates -n '__fish_seen_subcommand_from last' -l parse -r -a ''
complete -c dates -n '__fish_seen_subcommand_from last' -l order -r -a 'dmy mdy '
complete -c dates -n '__fish_seen_subcommand_from last' -l format -r -a ''
complete -c dates -n '__fish_seen_subcommand_from last' -l long
complete -c dates -n '__fish_seen_subcommand_from last' -l within
complete -c dates -n '__fish_seen_subcommand_from last' -l field -r -a ''
complete -c dates -n '__fish_seen_subcommand_from last' -l separator -r -a 'comma tab semicolon space '
complete -c dates -n '__fish_seen_subcommand_from last' -l json
complete -c dates -n '__fish_seen_subcommand_from last' -l help
complete -c dates -n __fish_use_subcommand -a round -d 'print the next such weekday, or part of the day'
complete -c dates -n '__fish_seen_subcommand_from round' -l zone -r -a ''
complete -c dates -n '__fish_seen_subcommand_from round' -l now -r -a ''
complete -c dates -n '__fish_seen_subcommand_from round' -l unix
complete -c dates -n '__fish_seen_subcommand_from round' -l parse -r -a ''
complete -c dates -n '__fish_seen_subcommand_from round' -l order -r -a 'dmy mdy '
complete -c dates -n '__fish_seen_subcommand_from round' -l format -r -a ''
complete -c dates -n '__fish_seen_subcommand_from round' -l long
complete -c dates -n '__fish_seen_subcommand_from round' -l within
complete -c dates -n '__fish_seen_subcommand_from round' -l field -r -a ''
complete -c dates -n '__fish_seen_subcommand_from round' -l separator -r -a 'comma tab semicolon space '
complete -c dates -n '__fish_seen_subcommand_from round' -l json
complete -c dates -n '__fish_seen_subcommand_from round' -l help
complete -c dates -n __fish_use_subcommand -a easter -d 'print Easter Sunday of a year'
complete -c dates -n '__fish_seen_subcommand_from easter' -l format -r -a ''
complete -c dates -n '__fish_seen_subcommand_from easter' -l long
complete -c dates -n '__fish_seen_subcommand_from easter' -l json
complete -c dates -n '__fish_seen_subcommand_from easter' -l help
complete -c dates -n __fish_use_subcommand -a leap -d 'print whether a year is a leap year'
complete -c dates -n '__fish_seen_subcommand_from leap' -l json
complete -c dates -n '__fish_seen_subcommand_from leap' -l help
complete -c dates -n __fish_use_subcommand -a open -d 'print whether a day is open'
complete -c dates -n '__fish_seen_subcommand_from open' -l weekend -r -a 'mon tue wed thu fri sat sun none '
complete -c dates -n '__fish_seen_subcommand_from open' -l calendar -r -a 'us-federal target england fedwire nyse germany france japan '
complete -c dates -n '__fish_seen_subcommand_from open' -l holidays -r -a ''
complete -c dates -n '__fish_seen_subcommand_from open' -l now -r -a ''
complete -c dates -n '__fish_seen_subcommand_from open' -l parse -r -a ''
complete -c dates -n '__fish_seen_subcommand_from open' -l order -r -a 'dmy mdy '
complete -c dates -n '__fish_seen_subcommand_from open' -l json
complete -c dates -n '__fish_seen_subcommand_from open' -l help
complete -c dates -n __fish_use_subcommand -a roll -d 'print where a closed day goes'
complete -c dates -n '__fish_seen_subcommand_from roll' -l weekend -r -a 'mon tue wed thu fri sat sun none '
complete -c dates -n '__fish_seen_subcommand_from roll' -l calendar -r -a 'us-federal target england fedwire nyse germany france japan '
complete -c dates -n '__fish_seen_subcommand_from roll' -l holidays -r -a ''
complete -c dates -n '__fish_seen_subcommand_from roll' -l now -r -a ''
complete -c dates -n '__fish_seen_subcommand_from roll' -l parse -r -a ''
complete -c dates -n '__fish_seen_subcommand_from roll' -l order -r -a 'dmy mdy '
complete -c dates -n '__fish_seen_subcommand_from roll' -l format -r -a ''
complete -c dates -n '__fish_seen_subcommand_from roll' -l long
complete -c dates -n '__fish_seen_subcommand_from roll' -l within
complete -c dates -n '__fish_seen_subcommand_from roll' -l field -r -a ''
complete -c dates -n '__fish_seen_subcommand_from roll' -l separator -r -a 'comma tab semicolon space '
complete -c dates -n '__fish_seen_subcommand_from roll' -l json
complete -c dates -n '__fish_seen_subcommand_from roll' -l help
complete -c dates -n __fish_use_subcommand -a check -d 'print the lines that are no days, and why'
complete -c dates -n '__fish_seen_subcommand_from check' -l parse -r -a ''
complete -c dates -n '__fish_seen_subcommand_from check' -l order -r -a 'dmy mdy '
complete -c dates -n '__fish_seen_subcommand_from check' -l json
complete -c dates -n '__fish_seen_subcommand_from check' -l help
complete -c dates -n __fish_use_subcommand -a grep -d 'print the lines whose day is looked for'
complete -c dates -n '__fish_seen_subcommand_from grep' -l before -r -a ''
complete -c dates -n '__fish_seen_subcommand_from grep' -l after -r -a ''
complete -c dates -n '__fish_seen_subcommand_from grep' -l from -r -a ''
complete -c dates -n '__fish_seen_subcommand_from grep' -l until -r -a ''
complete -c dates -n '__fish_seen_subcommand_from grep' -l in -r -a ''
complete -c dates -n '__fish_seen_subcommand_from grep' -l on -r -a ''
complete -c dates -n '__fish_seen_subcommand_from grep' -l not
complete -c dates -n '__fish_seen_subcommand_from grep' -l only
complete -c dates -n '__fish_seen_subcommand_from grep' -l field -r -a ''
complete -c dates -n '__fish_seen_subcommand_from grep' -l separator -r -a 'comma tab semicolon space '
complete -c dates -n '__fish_seen_subcommand_from grep' -l now -r -a ''
complete -c dates -n '__fish_seen_subcommand_from grep' -l parse -r -a ''
complete -c dates -n '__fish_seen_subcommand_from grep' -l order -r -a 'dmy mdy '
complete -c dates -n '__fish_seen_subcommand_from grep' -l help
complete -c dates -n __fish_use_subcommand -a sort -d 'print lines in the order of their days'
complete -c dates -n '__fish_seen_subcommand_from sort' -l reverse
complete -c dates -n '__fish_seen_subcommand_from sort' -l field -r -a ''
complete -c dates -n '__fish_seen_subcommand_from sort' -l separator -r -a 'comma tab semicolon space '
complete -c dates -n '__fish_seen_subcommand_from sort' -l now -r -a ''
complete -c dates -n '__fish_seen_subcommand_from sort' -l parse -r -a ''
complete -c dates -n '__fish_seen_subcommand_from sort' -l order -r -a 'dmy mdy '
complete -c dates -n '__fish_seen_subcommand_from sort' -l help
complete -c dates -n __fish_use_subcommand -a test -d 'tell by the exit status which day is earlier'
complete -c dates -n '__fish_seen_subcommand_from test' -l zone -r -a ''
complete -c dates -n '__fish_seen_subcommand_from test' -l now -r -a ''
complete -c dates -n '__fish_seen_subcommand_from test' -l unix
complete -c dates -n '__fish_seen_subcommand_from test' -l parse -r -a ''
complete -c dates -n '__fish_seen_subcommand_from test' -l order -r -a 'dmy mdy '
complete -c dates -n '__fish_seen_subcommand_from test' -l json
complete -c dates -n '__fish_seen_subcommand_from test' -l help
complete -c dates -n __fish_use_subcommand -a next -d 'print when a schedule is due next'
complete -c dates -n '__fish_seen_subcommand_from next' -l from -r -a ''
complete -c dates -n '__fish_seen_subcommand_from next' -l count -r -a ''
complete -c dates -n '__fish_seen_subcommand_from next' -l zone -r -a ''
complete -c dates -n '__fish_seen_subcommand_from next' -l dialect -r -a 'crontab cronie seconds quartz robfig '
complete -c dates -n '__fish_seen_subcommand_from next' -l now -r -a ''
complete -c dates -n '__fish_seen_subcommand_from next' -l unix
complete -c dates -n '__fish_seen_subcommand_from next' -l parse -r -a ''
complete -c dates -n '__fish_seen_subcommand_from next' -l order -r -a 'dmy mdy '
complete -c dates -n '__fish_seen_subcommand_from next' -l format -r -a ''
complete -c dates -n '__fish_seen_subcommand_from next' -l long
complete -c dates -n '__fish_seen_subcommand_from next' -l json
complete -c dates -n '__fish_seen_subcommand_from next' -l help
complete -c dates -n __fish_use_subcommand -a prev -d 'print when a schedule was due before'
complete -c dates -n '__fish_seen_subcommand_from prev' -l from -r -a ''
complete -c dates -n '__fish_seen_subcommand_from prev' -l count -r -a ''
complete -c dates -n '__fish_seen_subcommand_from prev' -l zone -r -a ''
complete -c dates -n '__fish_seen_subcommand_from prev' -l dialect -r -a 'crontab cronie seconds quartz robfig '
complete -c dates -n '__fish_seen_subcommand_from prev' -l now -r -a ''
complete -c dates -n '__fish_seen_subcommand_from prev' -l unix
complete -c dates -n '__fish_seen_subcommand_from prev' -l parse -r -a ''
complete -c dates -n '__fish_seen_subcommand_from prev' -l order -r -a 'dmy mdy '
complete -c dates -n '__fish_seen_subcommand_from prev' -l format -r -a ''
complete -c dates -n '__fish_seen_subcommand_from prev' -l long
complete -c dates -n '__fish_seen_subcommand_from prev' -l json
complete -c dates -n '__fish_seen_subcommand_from prev' -l help
complete -c dates -n __fish_use_subcommand -a rule -d 'print the instances of a recurrence rule'
complete -c dates -n '__fish_seen_subcommand_from rule' -l start -r -a ''
complete -c dates -n '__fish_seen_subcommand_from rule' -l from -r -a ''
complete -c dates -n '__fish_seen_subcommand_from rule' -l count -r -a ''
complete -c dates -n '__fish_seen_subcommand_from rule' -l exdate -r -a ''
complete -c dates -n '__fish_seen_subcommand_from rule' -l rdate -r -a ''
complete -c dates -n '__fish_seen_subcommand_from rule' -l zone -r -a ''
complete -c dates -n '__fish_seen_subcommand_from rule' -l now -r -a ''
complete -c dates -n '__fish_seen_subcommand_from rule' -l parse -r -a ''
complete -c dates -n '__fish_seen_subcommand_from rule' -l order -r -a 'dmy mdy '
complete -c dates -n '__fish_seen_subcommand_from rule' -l format -r -a ''
complete -c dates -n '__fish_seen_subcommand_from rule' -l long
complete -c dates -n '__fish_seen_subcommand_from rule' -l json
complete -c dates -n '__fish_seen_subcommand_from rule' -l help
complete -c dates -n __fish_use_subcommand -a explain -d 'tell a schedule or a rule in plain English'
complete -c dates -n '__fish_seen_subcommand_from explain' -l dialect -r -a 'crontab cronie seconds quartz robfig '
complete -c dates -n '__fish_seen_subcommand_from explain' -l json
complete -c dates -n '__fish_seen_subcommand_from explain' -l help
complete -c dates -n __fish_use_subcommand -a cal -d 'print a month or a year as a sheet'
complete -c dates -n '__fish_seen_subcommand_from cal' -l first -r -a 'mon tue wed thu fri sat sun '
complete -c dates -n '__fish_seen_subcommand_from cal' -l now -r -a ''
complete -c dates -n '__fish_seen_subcommand_from cal' -l weekend -r -a 'mon tue wed thu fri sat sun none '
complete -c dates -n '__fish_seen_subcommand_from cal' -l calendar -r -a 'us-federal target england fedwire nyse germany france japan '
complete -c dates -n '__fish_seen_subcommand_from cal' -l holidays -r -a ''
complete -c dates -n '__fish_seen_subcommand_from cal' -l json
complete -c dates -n '__fish_seen_subcommand_from cal' -l help
complete -c dates -n __fish_use_subcommand -a now -d 'print what time it is, to the second'
complete -c dates -n '__fish_seen_subcommand_from now' -l zone -r -a ''
complete -c dates -n '__fish_seen_subcommand_from now' -l now -r -a ''
complete -c dates -n '__fish_seen_subcommand_from now' -l unix
complete -c dates -n '__fish_seen_subcommand_from now' -l format -r -a ''
complete -c dates -n '__fish_seen_subcommand_from now' -l long
complete -c dates -n '__fish_seen_subcommand_from now' -l json
complete -c dates -n '__fish_seen_subcommand_from now' -l help
complete -c dates -n __fish_use_subcommand -a today -d 'print what day it is'
complete -c dates -n '__fish_seen_subcommand_from today' -l zone -r -a ''
complete -c dates -n '__fish_seen_subcommand_from today' -l now -r -a ''
complete -c dates -n '__fish_seen_subcommand_from today' -l format -r -a ''
complete -c dates -n '__fish_seen_subcommand_from today' -l long
complete -c dates -n '__fish_seen_subcommand_from today' -l json
complete -c dates -n '__fish_seen_subcommand_from today' -l help
complete -c dates -n __fish_use_subcommand -a format -d 'print a day or a date-time by a pattern'
complete -c dates -n '__fish_seen_subcommand_from format' -l zone -r -a ''
complete -c dates -n '__fish_seen_subcommand_from format' -l now -r -a ''
complete -c dates -n '__fish_seen_subcommand_from format' -l unix
complete -c dates -n '__fish_seen_subcommand_from format' -l parse -r -a ''
complete -c dates -n '__fish_seen_subcommand_from format' -l order -r -a 'dmy mdy '
complete -c dates -n '__fish_seen_subcommand_from format' -l within
complete -c dates -n '__fish_seen_subcommand_from format' -l field -r -a ''
complete -c dates -n '__fish_seen_subcommand_from format' -l separator -r -a 'comma tab semicolon space '
complete -c dates -n '__fish_seen_subcommand_from format' -l json
complete -c dates -n '__fish_seen_subcommand_from format' -l help
complete -c dates -n __fish_use_subcommand -a parse -d 'read a day or a date-time by a pattern'
complete -c dates -n '__fish_seen_subcommand_from parse' -l format -r -a ''
complete -c dates -n '__fish_seen_subcommand_from parse' -l long
complete -c dates -n '__fish_seen_subcommand_from parse' -l json
complete -c dates -n '__fish_seen_subcommand_from parse' -l help
complete -c dates -n __fish_use_subcommand -a in -d 'print what a time zone's clock shows'
complete -c dates -n '__fish_seen_subcommand_from in' -l from-zone -r -a ''
complete -c dates -n '__fish_seen_subcommand_from in' -l within
complete -c dates -n '__fish_seen_subcommand_from in' -l field -r -a ''
complete -c dates -n '__fish_seen_subcommand_from in' -l separator -r -a 'comma tab semicolon space '
complete -c dates -n '__fish_seen_subcommand_from in' -l now -r -a ''
complete -c dates -n '__fish_seen_subcommand_from in' -l unix
complete -c dates -n '__fish_seen_subcommand_from in' -l parse -r -a ''
complete -c dates -n '__fish_seen_subcommand_from in' -l order -r -a 'dmy mdy '
complete -c dates -n '__fish_seen_subcommand_from in' -l format -r -a ''
complete -c dates -n '__fish_seen_subcommand_from in' -l long
complete -c dates -n '__fish_seen_subcommand_from in' -l json
complete -c dates -n '__fish_seen_subcommand_from in' -l help
complete -c dates -n __fish_use_subcommand -a zone -d 'print when a time zone's clock is set'
complete -c dates -n '__fish_seen_subcommand_from zone' -l year -r -a ''
complete -c dates -n '__fish_seen_subcommand_from zone' -l format -r -a ''
complete -c dates -n '__fish_seen_subcommand_from zone' -l long
complete -c dates -n '__fish_seen_subcommand_from zone' -l json
complete -c dates -n '__fish_seen_subcommand_from zone' -l help
