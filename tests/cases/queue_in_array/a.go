package main

const room = 5

type queue struct {
	items        [room]int
	first, count int
}

func pushed(q queue, item int) (queue, bool) {
	if q.count == room {
		return q, false
	}
	q.items[(q.first+q.count)%room] = item
	q.count++
	return q, true
}

func popped(q queue) (rest queue, item int) {
	if q.count == 0 {
		panic("empty queue")
	}
	rest, item = q, q.items[q.first]
	rest.items[q.first] = 0
	rest.first = (rest.first + 1) % room
	rest.count--
	return
}

func show(q queue) {
	print(q.first, " ", q.count, ":")
	for i := range q.count {
		print(" ", q.items[(q.first+i)%room])
	}
	println()
}

func main() {
	var q queue
	next := 1
	for round := range 4 {
		for ok := true; ok; {
			if q, ok = pushed(q, next); ok {
				next++
			}
		}
		show(q)
		for range round + 1 {
			item := 0
			q, item = popped(q)
			print(item, " ")
		}
		println()
	}
	show(q)
	kept := q
	q, _ = popped(q)
	println(q == kept, q.count, kept.count)
	q, _ = popped(q)
	println("not reached", q.count)
}
