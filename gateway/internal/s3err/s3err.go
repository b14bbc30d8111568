// Package s3err has the errors that S3 calls are answered with (Amazon S3 API Reference, "Error responses").
package s3err

import (
	"errors"
	"net/http"
)

// Error is an error as a client is told it.
type Error struct {
	Code    string
	Status  int // of HTTP
	Message string
}

// Error returns the code and the message.
func (e *Error) Error() string { return e.Code + ": " + e.Message }

// The statuses of codes but 400.
var statuses = map[string]int{
	"NotModified": 304, "AccessDenied": 403, "InvalidAccessKeyId": 403, "QuotaExceeded": 403, "RequestTimeTooSkewed": 403,
	"SignatureDoesNotMatch": 403, "NoSuchKey": 404, "MethodNotAllowed": 405, "MissingContentLength": 411,
	"PreconditionFailed": 412, "InvalidRange": 416, "InternalError": 500, "NotImplemented": 501, "SlowDown": 503,
}

// New returns an error of a code, with the status that S3 gives it.
func New(code, message string) *Error {
	status, isThere := statuses[code]
	if !isThere {
		status = http.StatusBadRequest
	}
	return &Error{code, status, message}
}

// NotSet returns the error of a call that asks for what isn't set: its status is 404.
func NotSet(code, message string) *Error { return &Error{code, http.StatusNotFound, message} }

// Of returns the S3 error in an error's chain, and whether there is one.
func Of(err error) (*Error, bool) {
	var e *Error
	isThere := errors.As(err, &e)
	return e, isThere
}

// Is returns whether an error is an S3 error of a code.
func Is(err error, code string) bool {
	e, isThere := Of(err)
	return isThere && e.Code == code
}
