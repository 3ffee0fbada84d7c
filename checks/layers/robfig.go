// Answers lines `START TEXT` by robfig/cron: the next time after a start, in seconds since 1970, at which the schedule is due by UTC. `none` if it
// finds none, and `refused` if it does not read the text.
package main

import (
	"bufio"
	"fmt"
	"os"
	"strconv"
	"strings"
	"time"

	"github.com/robfig/cron"
)

func answer(line string) string {
	word, text, _ := strings.Cut(line, " ")
	start, err := strconv.ParseInt(word, 10, 64)
	if err != nil {
		return "no start"
	}
	schedule, err := cron.ParseStandard(text)
	if err != nil {
		return "refused"
	}
	due := schedule.Next(time.Unix(start, 0).UTC())
	if due.IsZero() {
		return "none"
	}
	return strconv.FormatInt(due.Unix(), 10)
}

func main() {
	lines := bufio.NewScanner(os.Stdin)
	for lines.Scan() {
		fmt.Println(answer(lines.Text()))
	}
}
