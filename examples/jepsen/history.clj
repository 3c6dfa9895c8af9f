(ns history
  "Prints a history of Jepsen's for `faultyard linear`:

    clojure history.clj store/latest/history.edn | faultyard linear

  It takes the reads and writes of one register or, as jepsen.independent has them, of many; each
  value of a register is written once. What a nemesis did is left out. Another operation, as :cas,
  ends it with 1, and nothing is printed."
  (:require [clojure.edn :as edn]
            [clojure.java.io :as io]
            [clojure.string :as string])
  (:import (java.io PushbackReader)))

(defn operations
  "The operations of a file, whether each stands by itself or all stand in one vector."
  [path]
  (with-open [file (PushbackReader. (io/reader path))]
    (let [form #(edn/read {:eof nil :default (fn [_ it] it)} file)]
      (->> (repeatedly form) (take-while some?) (mapcat #(if (map? %) [%] %)) doall))))

(defn text [it] (if (nil? it) "null" (pr-str (str it))))

(defn line
  "A line but for its index: the register and the value are those of the beginning, but of a read
  that was answered."
  [{:keys [time process type f]} [register value]]
  (format "\"time\":%d,\"process\":%d,\"type\":\"%s\",\"f\":\"%s\",%s\"value\":[%s,%s]}"
          time process (name type) (name f) (if (= f :read) "\"node\":null," "")
          (text register) (text value)))

(defn step
  "Takes one operation: what has begun, by process, the latest time, and the lines so far."
  [{:keys [begun latest] :as so-far} {:keys [process type f value] :as operation}]
  (let [[register told] (if (vector? value) value ["register" value])
        operation (update operation :time max latest)
        so-far (assoc so-far :latest (:time operation))
        add #(update so-far :lines conj (line operation %))]
    (cond (not (#{:read :write} f)) (throw (ex-info (str "it has " f) {}))
          (= type :invoke) (assoc-in (add [register told]) [:begun process] [register told])
          (and (= type :ok) (= f :read)) (add [(first (begun process)) told])
          :else (add (begun process)))))

(try
  (let [by-clients (filter (comp integer? :process) (operations (first *command-line-args*)))
        {:keys [lines]} (reduce step {:begun {} :latest 0 :lines []} by-clients)]
    (println (string/join "\n" (map-indexed #(str "{\"index\":" %1 "," %2) lines))))
  (catch Exception it
    (binding [*out* *err*] (println "history.clj:" (ex-message it)))
    (System/exit 1)))
