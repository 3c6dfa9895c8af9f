package faultyard

// #include <faultyard.h>
import "C"

import "unsafe"

// usualPlan is how many orders most plans have at most; a longer one is drawn again.
const usualPlan = 64

// Words answers the first words of a stream of a seed: pseudo-random words of ChaCha with eight
// rounds. A swarm's actor draws from the stream of its number.
//
// Its error is the first of ErrArgument, where the count is below 0, and ErrNoMemory.
func Words(seed, stream uint64, count int) ([]uint32, error) {
	if count <= 0 {
		if count < 0 {
			return nil, ErrArgument
		}
		return []uint32{}, nil
	}
	words := make([]uint32, count)
	first := (*C.uint32_t)(unsafe.Pointer(&words[0]))
	status := C.fy_words(C.uint64_t(seed), C.uint64_t(stream), first, C.size_t(count))
	if err := errorOf(status); err != nil {
		return nil, err
	}
	return words, nil
}

// Planned is an order of a plan.
type Planned struct {
	// Act is what is ordered.
	Act OrderAct
	// Order has the Key and the Value of the target, and of a kill all else, so that Kill takes it.
	Order
	// Ticks is for how many ticks a clog lasts.
	Ticks uint64
}

// SwizzlePlan answers the swizzle that is drawn from a stream of a seed: clogs for so many ticks,
// and then the end of each, in another order. A swarm's first, third, .. fault actor makes it, for
// 10 ticks; the stream is its number. Nothing is entered.
//
// Its error is the first of ErrClosed, ErrNoMemory.
func (guard *Guard) SwizzlePlan(seed, stream, ticks uint64) ([]Planned, error) {
	return guard.plan(func(
		its *C.fy_guard, orders *C.fy_order, room C.size_t, told *C.size_t,
	) C.uint32_t {
		return C.fy_swizzle_plan(its, C.uint64_t(seed), C.uint64_t(stream), C.uint64_t(ticks),
			orders, room, told)
	})
}

// Attrition says which machines an attrition kills, and how.
type Attrition struct {
	// ToKill is how many machines are killed at most, ToLeave how many are spared at least.
	ToKill, ToLeave uint32
	// Kind, Floor and Tear are those of each Order.
	Kind  Kind
	Floor Kind
	Tear  uint64
}

// SwarmAttrition is the attrition of a swarm's second, fourth, .. fault actor.
func SwarmAttrition() Attrition {
	return Attrition{ToKill: 2, ToLeave: 1, Kind: KillInstantly, Floor: Reboot}
}

// AttritionPlan answers the attrition that is drawn from a stream of a seed: a kill of each
// machine. The stream of a swarm's actor is its number. Nothing is entered.
//
// Its error is the first of ErrClosed, ErrArgument, ErrFloor, ErrNoMemory.
func (guard *Guard) AttritionPlan(seed, stream uint64, asked Attrition) ([]Planned, error) {
	floor := floorOf(asked.Floor)
	return guard.plan(func(
		its *C.fy_guard, orders *C.fy_order, room C.size_t, told *C.size_t,
	) C.uint32_t {
		return C.fy_attrition_plan(its, C.uint64_t(seed), C.uint64_t(stream),
			C.uint32_t(asked.ToKill), C.uint32_t(asked.ToLeave), C.uint32_t(asked.Kind), floor,
			C.uint64_t(asked.Tear), orders, room, told)
	})
}

// plan answers the orders that a call of the library writes.
func (guard *Guard) plan(
	call func(its *C.fy_guard, orders *C.fy_order, room C.size_t, told *C.size_t) C.uint32_t,
) ([]Planned, error) {
	orders := make([]C.fy_order, usualPlan)
	var status C.uint32_t
	var told C.size_t
	err := guard.do(func(its *C.fy_guard) {
		status = call(its, &orders[0], C.size_t(len(orders)), &told)
		if status == C.FY_SHORT {
			orders = make([]C.fy_order, told)
			status = call(its, &orders[0], told, &told)
		}
	})
	if err == nil {
		err = errorOf(status)
	}
	if err != nil {
		return nil, err
	}
	return plannedOf(orders[:told]), nil
}

// PlanOrders answers the orders of the first turns of the fault actor with this number in
// `faultyard simulate`, one a turn: of a turn that orders nothing the Act is OrderNone. The target
// may be one that no process has, and the ticks more than the clock has. Nothing is entered.
//
// Its error is the first of ErrArgument where the count is below 0, ErrClosed, ErrArgument where
// there is no such plan, ErrNoMemory.
func (guard *Guard) PlanOrders(plan Plan, seed uint64, actor uint32, count int) ([]Planned, error) {
	if count < 0 {
		return nil, ErrArgument
	}
	// The library takes no null pointer, also for no orders.
	orders := make([]C.fy_order, count+1)
	var status C.uint32_t
	err := guard.do(func(its *C.fy_guard) {
		status = C.fy_plan_orders(its, C.uint32_t(plan), C.uint64_t(seed), C.uint32_t(actor),
			&orders[0], C.size_t(count))
	})
	if err == nil {
		err = errorOf(status)
	}
	if err != nil {
		return nil, err
	}
	return plannedOf(orders[:count]), nil
}

// plannedOf answers orders of the library as this package has them.
func plannedOf(orders []C.fy_order) []Planned {
	planned := make([]Planned, len(orders))
	for at := range planned {
		order := &orders[at]
		planned[at] = Planned{
			Act: OrderAct(order.act),
			Order: Order{
				Key:   Key(order.key),
				Value: C.GoString(&order.value[0]),
				Kind:  Kind(order.kind),
				Floor: Kind(order.floor),
				Tear:  uint64(order.tear),
			},
			Ticks: uint64(order.ticks),
		}
	}
	return planned
}
