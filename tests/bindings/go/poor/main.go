// Command poor asks the library of poor_library/poor.c, and tells the error of each call. That
// library aborts where two calls are made at once.
package main

import (
	"errors"
	"fmt"
	"log"
	"sync"

	"faultyard"
)

func main() {
	guard, err := faultyard.Open(nil)
	if err != nil {
		log.Fatal(err)
	}
	_, err = faultyard.Open(nil)
	fmt.Println("Open:", err)
	_, err = faultyard.Open([]byte("="))
	fmt.Println("Open, to say where the fault is:", err)
	_, err = guard.Kill(1, faultyard.Order{})
	fmt.Println("Kill:", err)
	fmt.Println("Reset:", guard.Reset())
	_, err = guard.TryCopy()
	fmt.Println("TryCopy:", err)
	_, err = guard.Judge(1, faultyard.Order{})
	fmt.Println("Judge:", err)
	_, err = guard.Killable(1)
	fmt.Println("Killable:", err)
	fmt.Println("Up:", guard.Up(0, 0))
	fmt.Println("Heal:", guard.Heal(0, 0))
	_, err = guard.Form(0, nil, 0)
	fmt.Println("Form:", err)
	fmt.Println("Take:", guard.Take(0, 0, 0))
	_, err = guard.Act(nil)
	fmt.Println("Act:", err)
	_, err = guard.Ask(nil)
	fmt.Println("Ask:", err)
	_, err = guard.Entry(0)
	fmt.Println("Entry:", err)
	_, err = guard.Audit()
	fmt.Println("Audit:", err)
	_, err = guard.IsDestroyed(0)
	fmt.Println("IsDestroyed:", err)
	_, err = guard.Left()
	fmt.Println("Left:", err)
	_, err = guard.UpSet()
	fmt.Println("UpSet:", err)
	_, _, err = guard.State(0)
	fmt.Println("State:", err)
	_, err = guard.Needed(0)
	fmt.Println("Needed:", err)
	_, err = guard.Destroyed()
	fmt.Println("Destroyed:", err)
	_, err = guard.Gone()
	fmt.Println("Gone:", err)
	_, err = guard.Targets(0, "")
	fmt.Println("Targets:", err)
	_, err = guard.Process("")
	fmt.Println("Process:", err)
	_, err = guard.ProcessCount()
	fmt.Println("ProcessCount:", err)
	_, err = guard.IsAcked(0)
	fmt.Println("IsAcked:", err)
	_, err = guard.Keeper(0)
	fmt.Println("Keeper:", err)
	_, err = guard.Sight()
	fmt.Println("Sight:", err)
	_, err = guard.Bears()
	fmt.Println("Bears:", err)
	_, err = faultyard.Words(0, 0, 1)
	fmt.Println("Words:", err)
	_, err = guard.SwizzlePlan(0, 0, 1)
	fmt.Println("SwizzlePlan:", err)
	_, err = guard.AttritionPlan(0, 0, faultyard.SwarmAttrition())
	fmt.Println("AttritionPlan:", err)
	_, err = faultyard.BeginCheck([]byte("="))
	fmt.Println("BeginCheck:", err)
	check, err := faultyard.BeginCheck(nil)
	if err != nil {
		log.Fatal(err)
	}
	_, err = check.Line(nil)
	fmt.Println("Line:", err)
	var group sync.WaitGroup
	for i := 0; i < 1000; i++ {
		group.Add(1)
		go func() {
			defer group.Done()
			if err := guard.Up(0, 0); !errors.Is(err, faultyard.ErrNoMemory) {
				log.Fatal(err)
			}
		}()
	}
	group.Wait()
	fmt.Println("Close:", guard.Close())
}
