(ns guarded
  "What a nemesis of Jepsen asks faultyard-serve before each kill. It needs Java 11, and nothing
  else.

  In invoke!: (struck url node :RebootAndDelete) says what to do to the node. Put it into the
  operation's value. Tell (up url number) once the node's process runs again, and (heal url number)
  once it has all records again: without that the guard lets no other one be emptied."
  (:import (java.io IOException)
           (java.net URI)
           (java.net.http HttpClient HttpRequest HttpRequest$BodyPublishers
                          HttpResponse$BodyHandlers)
           (java.util UUID)))

(def client (delay (HttpClient/newHttpClient)))

(defn- send-once [url key line]
  (let [request (-> (HttpRequest/newBuilder (URI/create (str url "/v1/acts")))
                    (.header "Content-Type" "application/json")
                    (.header "Idempotency-Key" key)
                    (.POST (HttpRequest$BodyPublishers/ofString line))
                    .build)
        answer (.send @client request (HttpResponse$BodyHandlers/ofString))]
    (if (#{502 503 504} (.statusCode answer)) ; the server's, or those of a proxy before it
      (throw (IOException. "the server isn't there"))
      answer)))

(defn act
  "Asks for an act, and answers the line of its entry. Without an answer it asks again, once a
  second for a minute: by its key the act is made once."
  [url line]
  (let [key (str (UUID/randomUUID))]
    (loop [tries 60]
      (let [answer (try (send-once url key line)
                        (catch IOException gone (when (zero? tries) (throw gone))))]
        (cond (nil? answer) (do (Thread/sleep 1000) (recur (dec tries)))
              (= 200 (.statusCode answer)) (.body answer)
              :else (throw (ex-info (.body answer) {:status (.statusCode answer)})))))))

(defn struck
  "Orders a kill of a node by actor 1. Answers the kind that struck, or nil: then nothing may be
  done."
  [url node kind]
  (let [order (str "{\"by\":1,\"act\":{\"kill\":{\"key\":\"processid\",\"value\":\"" node
                   "\",\"kind\":\"" (name kind) "\",\"floor\":\"RebootProcess\",\"tear\":0}}}")]
    (some-> (re-find #"\"struck\":\"(\w+)\"" (act url order)) second keyword)))

(defn up
  "Tells by actor 0 that the process with a number of the cluster file runs again."
  [url number]
  (act url (str "{\"by\":0,\"act\":{\"up\":{\"process\":" number "}}}")))

(defn heal
  "Tells by actor 0 that a process that was emptied has all records again. docs/GUARD.md says what
  has to be asked of it first."
  [url number]
  (act url (str "{\"by\":0,\"act\":{\"heal\":{\"process\":" number "}}}")))
