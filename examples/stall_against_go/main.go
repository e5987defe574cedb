// Command stall_against_go is the same program as the scenario `pool`, on Go's own channels. If every goroutine waits, Go's
// runtime reports a deadlock and ends the program with status 2.
package main

// work takes a job before it sends each of its own results. After that, it takes jobs and drops them until jobs is closed.
func work(jobs <-chan int, results chan<- int, own ...int) {
	for _, result := range own {
		<-jobs
		results <- result
	}
	for range jobs {
	}
}

func main() {
	jobs := make(chan int)
	results := make(chan int, 2)
	go work(jobs, results, 10, 11)
	go work(jobs, results, 20, 21)
	go work(jobs, results, 30)
	go work(jobs, results, 40)
	for job := 1; job <= 8; job++ {
		jobs <- job
	}
	close(jobs)
	for i := 0; i < 6; i++ {
		<-results
	}
}
