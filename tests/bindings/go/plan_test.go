package faultyard_tests

import (
	"fmt"
	"math"
	"strings"
	"testing"

	"faultyard"
)

// TestSeededWords holds words against the published vectors.
func TestSeededWords(t *testing.T) {
	for _, it := range []struct {
		seed, stream uint64
		words        []uint32
	}{
		{0, 0, []uint32{0x2fef003e, 0xd6405f89, 0xe8b85b7f, 0xa1a5091f}},
		{1, 0, []uint32{0xa0e95ecf, 0x61a94a49, 0xedd5053e, 0x4b805b72}},
		{0, 1, []uint32{0xb34b8f2b, 0xca068379, 0x7cd43051, 0xd14e8d4f}},
		{0, 1, []uint32{}},
	} {
		words, err := faultyard.Words(it.seed, it.stream, len(it.words))
		equal(t, err, nil)
		equal(t, words, it.words)
	}
	for _, count := range []int{-1, math.MinInt} {
		words, err := faultyard.Words(0, 0, count)
		fails(t, err, faultyard.ErrArgument)
		equal(t, len(words), 0)
	}
}

// shuffled is the list, of which each place from the last down to the second is swapped with the
// one that the next word gives.
func shuffled(list, words []uint32) []uint32 {
	list = append([]uint32{}, list...)
	for last, at := len(list)-1, 0; last > 0; last, at = last-1, at+1 {
		other := words[at] % uint32(last+1)
		list[last], list[other] = list[other], list[last]
	}
	return list
}

// TestPlans draws plans from words by the rules.
func TestPlans(t *testing.T) {
	guard := opened(t, six(t))
	hard := faultyard.Attrition{
		ToKill: 9, Kind: faultyard.RebootAndDelete, Floor: faultyard.RebootProcess, Tear: 5,
	}
	for seed := uint64(0); seed < 50; seed++ {
		words, err := faultyard.Words(seed, 1, 12)
		equal(t, err, nil)
		var chosen []uint32
		for process := uint32(0); process < 6; process++ {
			if words[process]%2 == 1 {
				chosen = append(chosen, process)
			}
		}
		wanted := []faultyard.Planned{}
		for _, process := range chosen {
			order := faultyard.Order{Key: faultyard.Process, Value: fmt.Sprintf("p%d", process)}
			wanted = append(wanted, faultyard.Planned{Act: faultyard.OrderClog, Order: order, Ticks: 7})
		}
		for _, process := range shuffled(chosen, words[6:]) {
			order := faultyard.Order{Key: faultyard.Process, Value: fmt.Sprintf("p%d", process)}
			wanted = append(wanted, faultyard.Planned{Act: faultyard.OrderUnclog, Order: order})
		}
		plan, err := guard.SwizzlePlan(seed, 1, 7)
		equal(t, err, nil)
		equal(t, plan, wanted)
		machines := shuffled([]uint32{0, 1, 2, 3, 4, 5}, words)
		equal(t, attrition(t, guard, seed, hard), kills(machines, hard))
		ofSwarm := faultyard.SwarmAttrition()
		equal(t, attrition(t, guard, seed, ofSwarm), kills(machines[:2], ofSwarm))
	}
	entries, err := guard.JournalLen()
	equal(t, err, nil)
	equal(t, entries, 0)
}

func attrition(
	t *testing.T, guard *faultyard.Guard, seed uint64, asked faultyard.Attrition,
) []faultyard.Planned {
	t.Helper()
	plan, err := guard.AttritionPlan(seed, 1, asked)
	equal(t, err, nil)
	return plan
}

func kills(machines []uint32, asked faultyard.Attrition) []faultyard.Planned {
	var wanted []faultyard.Planned
	for _, machine := range machines {
		order := faultyard.Order{
			Key: faultyard.Machine, Value: fmt.Sprintf("m%d", machine),
			Kind: asked.Kind, Floor: asked.Floor, Tear: asked.Tear,
		}
		wanted = append(wanted, faultyard.Planned{Act: faultyard.OrderKill, Order: order})
	}
	return wanted
}

// TestPlanFaults meets each error of a plan that a test can bring about.
func TestPlanFaults(t *testing.T) {
	guard := opened(t, six(t))
	above := faultyard.Attrition{Kind: faultyard.Reboot, Floor: faultyard.KillInstantly}
	_, err := guard.AttritionPlan(0, 0, above)
	fails(t, err, faultyard.ErrFloor)
	_, err = guard.AttritionPlan(0, 0, faultyard.Attrition{})
	fails(t, err, faultyard.ErrArgument)
	equal(t, guard.Close(), nil)
	_, err = guard.SwizzlePlan(0, 0, 1)
	fails(t, err, faultyard.ErrClosed)
	_, err = guard.AttritionPlan(0, 0, faultyard.SwarmAttrition())
	fails(t, err, faultyard.ErrClosed)
	equal(t, faultyard.OrderUnclog.String(), "unclog")
	equal(t, faultyard.OrderAct(4).String(), "OrderAct(4)")
}

// TestPlanOrders holds the orders of a simulation against its rules: processes in turn, and the
// first round of an attrition.
func TestPlanOrders(t *testing.T) {
	guard := opened(t, six(t))
	rolled, err := guard.PlanOrders(faultyard.PlanRolling, 7, 1, 13)
	equal(t, err, nil)
	kinds := []faultyard.Kind{
		faultyard.RebootProcess, faultyard.Reboot, faultyard.RebootAndDelete,
	}
	for turn, planned := range rolled {
		equal(t, planned, faultyard.Planned{Act: faultyard.OrderKill, Order: faultyard.Order{
			Key: faultyard.Process, Value: fmt.Sprintf("p%d", turn%6),
			Kind: kinds[turn/6], Floor: faultyard.RebootProcess,
		}})
	}
	rests := 0
	for seed := uint64(0); seed < 64; seed++ {
		words, err := faultyard.Words(seed, 3, 8)
		equal(t, err, nil)
		stream := uint64(words[7])<<32 | uint64(words[6])
		wanted, err := guard.AttritionPlan(seed, stream, faultyard.Attrition{
			ToKill: 6, Kind: faultyard.RebootAndDelete, Floor: faultyard.Reboot, Tear: stream,
		})
		equal(t, err, nil)
		made, err := guard.PlanOrders(faultyard.PlanAttrition, seed, 3, 6)
		equal(t, err, nil)
		equal(t, made, wanted)
		mixed, err := guard.PlanOrders(faultyard.PlanMixed, seed, 3, 1)
		equal(t, err, nil)
		equal(t, mixed[0].Act == faultyard.OrderNone, words[0]%64 == 63)
		if mixed[0].Act == faultyard.OrderNone {
			rests++
		}
	}
	equal(t, rests > 0, true)
	_, err = guard.PlanOrders(5, 0, 0, 1)
	fails(t, err, faultyard.ErrArgument)
	_, err = guard.PlanOrders(faultyard.PlanMixed, 0, 0, -1)
	fails(t, err, faultyard.ErrArgument)
	equal(t, guard.Close(), nil)
	_, err = guard.PlanOrders(faultyard.PlanMixed, 0, 0, 1)
	fails(t, err, faultyard.ErrClosed)
	equal(t, faultyard.PlanSwizzle.String(), "swizzle")
}

// TestLongPlan reads a plan of more orders than the first buffer has room for.
func TestLongPlan(t *testing.T) {
	var processes strings.Builder
	for at := 0; at < 200; at++ {
		fmt.Fprintf(&processes, "{processid = \"p%d\", machineid = \"m%d\", zoneid = \"z\"},", at, at)
	}
	config := "journal_limit = 9\npolicies = [\"One()\"]\nprocess = [" + processes.String() +
		"]\nactor = [{role = \"fault\"}]\n"
	guard := opened(t, []byte(config))
	asked := faultyard.SwarmAttrition()
	asked.ToKill = 150
	equal(t, len(attrition(t, guard, 1, asked)), 150)
}
