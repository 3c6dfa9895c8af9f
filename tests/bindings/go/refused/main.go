// Command refused opens a guard by each cluster file that is named, and tells on a line why it is
// refused.
package main

import (
	"fmt"
	"log"
	"os"

	"faultyard"
)

func main() {
	for _, name := range os.Args[1:] {
		config, err := os.ReadFile(name)
		if err != nil {
			log.Fatal(err)
		}
		_, err = faultyard.Open(config)
		fmt.Println(err)
	}
}
