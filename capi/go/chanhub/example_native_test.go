package chanhub_test

import "fmt"

// The program of Example_chan with Go's own channels: a producer, a consumer, and a select of both their results.
func Example_native() {
	jobs, squares := make(chan int, 2), make(chan int)
	reports := make(chan string)
	go func() {
		for job := 1; job <= 10; job++ {
			jobs <- job
		}
		close(jobs)
	}()
	go func() {
		count := 0
		for job := range jobs {
			squares <- job * job
			count++
		}
		reports <- fmt.Sprint(count, " jobs")
	}()
	sum, report := 0, ""
	for i := 0; i < 11; i++ {
		select {
		case square := <-squares:
			sum += square
		case report = <-reports:
		}
	}
	fmt.Println(report, sum)
	// Output: 10 jobs 385
}
