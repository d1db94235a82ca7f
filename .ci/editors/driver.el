;;; driver.el --- lets a check drive Emacs  -*- lexical-binding: t -*-

;; It connects to the port $DRIVER_PORT, evaluates the expression in each line that comes, and answers in a line of JSON.

(require 'json)

(defvar driver-rest "" "What of a line has come.")

(defun driver-answer (line)
  "The value of the expression in LINE, as JSON."
  (json-encode
   (condition-case wrong
       (eval (car (read-from-string line)) t)
     (error (list (cons 'wrong (format "%S" wrong)))))))

(defun driver-take (process some)
  "Take SOME letters from PROCESS, and answer the lines that are whole."
  (let ((lines (split-string (concat driver-rest some) "\n")))
    (setq driver-rest (car (last lines)))
    (dolist (line (butlast lines))
      (process-send-string process (concat (driver-answer line) "\n")))))

(defun driver-document ()
  "The buffer of the document."
  (seq-find (lambda (it) (buffer-local-value 'roastcliff--document it)) (buffer-list)))

(defun driver-change (begin end put)
  "Put a text in place of what stands from BEGIN to END, as a command does it."
  (undo-boundary)
  (goto-char begin) ; or to the end
  (delete-region (point) (max (point) (min end (point-max))))
  (insert put)
  (let ((this-command nil))
    (run-hooks 'post-command-hook))
  t)

(make-network-process
 :name "driver" :host "localhost" :service (string-to-number (getenv "DRIVER_PORT"))
 :coding 'utf-8-unix :filter #'driver-take :noquery t)

;;; driver.el ends here
