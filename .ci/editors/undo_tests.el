;;; undo_tests.el --- tries how steps of undo are carried over changes of others  -*- lexical-binding: t -*-

;; Two rows of steps that were meant for one text give the same text, whichever goes first and is followed by what becomes of the other.

(require 'ert)
(require 'roastcliff)

(defun undo-tests-row (size)
  "A random row of steps for a text of SIZE letters: each is (AT OUT PUT)."
  (let (row)
    (dotimes (_ (random 4) (nreverse row))
      (let ((at (random (1+ size))))
        (if (or (zerop (random 2)) (= at size))
            (let ((put (1+ (random 3)))) (push (list at 0 put) row) (cl-incf size put))
          (let ((out (1+ (random (min 4 (- size at)))))) (push (list at out 0) row) (cl-decf size out)))))))

(defun undo-tests-made (text row who)
  "TEXT, a list, after the steps of ROW, which put in letters of WHO: they are known by the number of the step that puts them."
  (let ((number 0))
    (pcase-dolist (`(,at ,out ,put) row text)
      (let ((letters (and (> put 0) (make-list put (cons who (cl-incf number))))))
        (setq text (append (seq-take text at) letters (seq-drop text (+ at out))))))))

(ert-deftest undo-tests-cross ()
  "What becomes of two rows of steps gives one text."
  (random "roastcliff")
  (dotimes (_ 400)
    (let* ((size (random 12))
           (text (number-sequence 1 size))
           (ones (undo-tests-row size))
           (others (undo-tests-row size))
           (crossed (roastcliff--cross ones others)))
      (should (equal (undo-tests-made (undo-tests-made text ones 'one) (cdr crossed) 'other)
                     (undo-tests-made (undo-tests-made text others 'other) (car crossed) 'one))))))

(defun undo-tests-entry (step)
  "The entry of undo that makes STEP."
  (pcase-let ((`(,at ,out ,put) step))
    (if (> put 0) (cons (make-string put ?x) (1+ at)) (cons (1+ at) (+ 1 at out)))))

(ert-deftest undo-tests-in-place ()
  "Entries that are changed in place become what their steps become."
  (random "roastcliff")
  (dotimes (_ 400)
    (let* ((size (random 12))
           (ones (undo-tests-row size))
           (at (random (1+ size)))
           (out (random (1+ (- size at))))
           (put (random 3))
           (others (append (and (> out 0) (list (list at out 0))) (and (> put 0) (list (list at 0 put)))))
           (buffer-undo-list (mapcar #'undo-tests-entry ones)))
      (roastcliff--carry-undo at out put)
      (should (equal (delq nil (mapcar #'roastcliff--step-of buffer-undo-list))
                     (car (roastcliff--cross ones others)))))))

(ert-deftest undo-tests-many ()
  "Many entries that each meet one deletion are carried over it: what they put in stands in their order where it was."
  (let ((buffer-undo-list (mapcar (lambda (number) (cons "x" (+ 10 (* 2 number)))) (number-sequence 0 899))))
    (roastcliff--carry-undo 0 2000 0)
    (should (equal buffer-undo-list (mapcar (lambda (number) (cons "x" (1+ number))) (number-sequence 0 899))))))

(ert-deftest undo-tests-entries ()
  "An undo takes back what was written here, and leaves what others wrote in front of it, within it and behind it."
  (with-temp-buffer
    (buffer-enable-undo)
    (insert "text")
    (undo-boundary)
    (insert " abcdef")
    (undo-boundary)
    (pcase-dolist (`(,at ,put) '((0 "Ben's ") (14 "-in-") (21 "!")))
      (let ((buffer-undo-list t))
        (roastcliff--put-in (current-buffer) at 0 put))
      (roastcliff--carry-undo at 0 (length put)))
    (should (equal (buffer-string) "Ben's text abc-in-def!"))
    (let ((last-command nil))
      (undo))
    (should (equal (buffer-string) "Ben's text-in-!"))))

;;; undo_tests.el ends here
