"""Calls of boto3 through a gateway: clients_boto3.py URL BUCKET. Its last line is 'all ok'."""
import concurrent.futures
import datetime
import io
import os
import ssl
import sys
import time
import urllib.request

import boto3
from botocore.config import Config
from botocore.exceptions import ClientError

URL, B = sys.argv[1:]
# Whether the gateway keeps metadata, types and the like.
IS_KEPT = os.environ.get("META") != "no"
s3 = boto3.client("s3", endpoint_url=URL, config=Config(s3={"addressing_style": "path"}, retries={"max_attempts": 1}))
trust = ssl.create_default_context(cafile=os.environ.get("AWS_CA_BUNDLE")) if URL.startswith("https") else None


def code(call):
    try:
        call()
    except ClientError as error:
        return error.response["Error"]["Code"]
    return "none"


def read(**words):
    return s3.get_object(Bucket=B, **words)["Body"].read()


def fetch(url, **words):
    return urllib.request.urlopen(urllib.request.Request(url, **words), context=trust)


def objects():
    key, hello = "a/b c+é&%25", b"hello"
    s3.put_object(Bucket=B, Key=key, Body=hello, Metadata={"k": "v"}, ContentType="text/own", CacheControl="max-age=3")
    got = s3.get_object(Bucket=B, Key=key)
    assert got["Body"].read() == hello and got["LastModified"]
    kept = (got["Metadata"], got["ContentType"], got.get("CacheControl"))
    assert kept == (({"k": "v"}, "text/own", "max-age=3") if IS_KEPT else ({}, "binary/octet-stream", None)), got
    for algorithm in ("CRC32", "SHA1", "SHA256"):
        s3.put_object(Bucket=B, Key=algorithm, Body=hello * 100, ChecksumAlgorithm=algorithm)
        assert read(Key=algorithm, ChecksumMode="ENABLED") == hello * 100
    s3.put_object(Bucket=B, Key="empty", Body=b"")
    assert read(Key="empty") == b""
    assert code(lambda: read(Key="empty", Range="bytes=0-0")) == "InvalidRange"
    assert read(Key="SHA1", Range="bytes=5-9", ChecksumMode="ENABLED") == hello
    assert code(lambda: s3.put_object(Bucket=B, Key="x", Body=b"abc", ContentMD5="AAAAAAAAAAAAAAAAAAAAAA==")) == "BadDigest"


def conditions():
    tag = s3.head_object(Bucket=B, Key="empty")["ETag"]
    assert code(lambda: read(Key="empty", IfNoneMatch=tag)) == "304"
    assert code(lambda: read(Key="empty", IfMatch='"no"')) == "PreconditionFailed"
    assert read(Key="empty", IfMatch=tag) == b""
    if "IfNoneMatch" in s3.meta.service_model.operation_model("PutObject").input_shape.members:
        assert code(lambda: s3.put_object(Bucket=B, Key="empty", Body=b"z", IfNoneMatch="*")) == "PreconditionFailed"
        s3.put_object(Bucket=B, Key="new", Body=b"z", IfNoneMatch="*")


def listings():
    for i in range(25):
        s3.put_object(Bucket=B, Key=f"many/{i:03}", Body=b"x")
    pages = list(s3.get_paginator("list_objects_v2").paginate(Bucket=B, Prefix="many/", PaginationConfig={"PageSize": 7}))
    assert sum(it["KeyCount"] for it in pages) == 25 and len(pages) == 4
    pages = list(s3.get_paginator("list_objects").paginate(Bucket=B, Prefix="many/", PaginationConfig={"PageSize": 7}))
    assert sum(len(it["Contents"]) for it in pages) == 25
    pages = list(s3.get_paginator("list_objects").paginate(Bucket=B, Delimiter="/", PaginationConfig={"PageSize": 2}))
    assert sum(len(it.get("CommonPrefixes", [])) for it in pages) == 2
    found = s3.list_objects_v2(Bucket=B, Prefix="many/", StartAfter="many/022")["Contents"]
    assert [it["Key"] for it in found] == ["many/023", "many/024"]


def transfers():
    big, out = os.urandom(int(os.environ.get("BIG", 20 << 20))), io.BytesIO()
    s3.upload_fileobj(io.BytesIO(big), B, "big", ExtraArgs={"Metadata": {"m": "1"}})
    s3.download_fileobj(B, "big", out)
    assert out.getvalue() == big and s3.head_object(Bucket=B, Key="big")["Metadata"] == ({"m": "1"} if IS_KEPT else {})
    s3.copy({"Bucket": B, "Key": "big"}, B, "copy")
    assert s3.head_object(Bucket=B, Key="copy")["ContentLength"] == len(big)


def presigned():
    fetch(s3.generate_presigned_url("put_object", Params={"Bucket": B, "Key": "pre"}, ExpiresIn=60), data=b"presigned", method="PUT", headers={"Content-Type": ""})
    answer = fetch(s3.generate_presigned_url("get_object", Params={"Bucket": B, "Key": "pre", "ResponseContentType": "text/zz"}, ExpiresIn=60))
    assert answer.read() == b"presigned" and answer.headers["content-type"] == "text/zz"
    new = boto3.client("s3", endpoint_url=URL, config=Config(signature_version="s3v4", s3={"addressing_style": "path"}))
    assert fetch(new.generate_presigned_url("get_object", Params={"Bucket": B, "Key": "pre"}, ExpiresIn=60)).read() == b"presigned"


def unset():
    assert code(lambda: s3.get_object_tagging(Bucket=B, Key="pre")) == "none"
    assert code(lambda: s3.put_object_tagging(Bucket=B, Key="pre", Tagging={"TagSet": []})) == "NotImplemented"
    assert code(lambda: s3.get_bucket_policy(Bucket=B)) == "NoSuchBucketPolicy"
    assert code(lambda: read(Key="pre", PartNumber=1)) == "NotImplemented"


def versions():
    s3.put_bucket_versioning(Bucket=B, VersioningConfiguration={"Status": "Enabled"})
    first = s3.put_object(Bucket=B, Key="v", Body=b"1", Metadata={"n": "1"})["VersionId"]
    s3.put_object(Bucket=B, Key="v", Body=b"2", Metadata={"n": "2"})
    marker = s3.delete_object(Bucket=B, Key="v")
    assert marker["DeleteMarker"]
    assert code(lambda: read(Key="v")) == "NoSuchKey"
    assert code(lambda: read(Key="v", VersionId=marker["VersionId"])) == "MethodNotAllowed"
    got = s3.get_object(Bucket=B, Key="v", VersionId=first)
    assert got["Body"].read() == b"1" and got["Metadata"] == ({"n": "1"} if IS_KEPT else {}) and got["LastModified"]
    assert len(list(s3.get_paginator("list_object_versions").paginate(Bucket=B, Prefix="v", PaginationConfig={"PageSize": 1}))) == 3


def locks():
    """Object Lock in compliance mode, until the dates are over."""
    vault, words = f"{B}-vault", {"Bucket": f"{B}-vault", "Key": "v"}
    at = datetime.datetime.now(datetime.timezone.utc).replace(microsecond=0) + datetime.timedelta(seconds=20)
    s3.create_bucket(Bucket=vault, ObjectLockEnabledForBucket=True)
    assert s3.get_object_lock_configuration(Bucket=vault)["ObjectLockConfiguration"] == {"ObjectLockEnabled": "Enabled"}
    assert code(lambda: s3.get_object_lock_configuration(Bucket=B)) == "ObjectLockConfigurationNotFoundError"
    assert code(lambda: s3.put_bucket_versioning(Bucket=vault, VersioningConfiguration={"Status": "Suspended"})) == "InvalidBucketState"
    first = s3.put_object(**words, Body=b"1", ObjectLockMode="COMPLIANCE", ObjectLockRetainUntilDate=at - datetime.timedelta(seconds=1))["VersionId"]
    until = lambda when, mode="COMPLIANCE": {"Mode": mode, "RetainUntilDate": when}
    put = lambda when, mode="COMPLIANCE": s3.put_object_retention(**words, VersionId=first, Retention=until(when, mode))
    put(at)
    assert s3.get_object_retention(**words)["Retention"] == until(at)
    assert code(lambda: put(at - datetime.timedelta(seconds=1))) == "AccessDenied"
    assert "ObjectLockRetainUntilDate" not in s3.head_object(**words)
    assert code(lambda: put(at, "GOVERNANCE")) == code(lambda: s3.get_object_legal_hold(**words)) == "NotImplemented"
    copy = {"Bucket": vault, "Key": "c", "CopySource": words}
    second = s3.copy_object(**copy, ObjectLockMode="COMPLIANCE", ObjectLockRetainUntilDate=at)["VersionId"]
    third = s3.copy_object(**copy)["VersionId"]
    assert code(lambda: s3.get_object_retention(Bucket=vault, Key="c")) == "NoSuchObjectLockConfiguration"
    assert code(lambda: s3.create_multipart_upload(**words, ObjectLockMode="COMPLIANCE", ObjectLockRetainUntilDate=at)) == "NotImplemented"
    assert code(lambda: s3.put_object(Bucket=B, Key="v", ObjectLockMode="COMPLIANCE", ObjectLockRetainUntilDate=at)) == "InvalidRequest"
    assert code(lambda: s3.delete_object(**words, VersionId=first)) == "AccessDenied"
    gone = s3.delete_objects(Bucket=vault, Delete={"Objects": [{"Key": "c", "VersionId": it} for it in (second, third)]})
    assert [(it["VersionId"], it["Code"]) for it in gone["Errors"]] == [(second, "AccessDenied")] and len(gone["Deleted"]) == 1, gone
    assert s3.get_object(**words, VersionId=first)["Body"].read() == b"1"
    time.sleep(max(0, at.timestamp() - time.time()))
    boto3.resource("s3", endpoint_url=URL).Bucket(vault).object_versions.delete()
    s3.delete_bucket(Bucket=vault)


def parallel():
    with concurrent.futures.ThreadPoolExecutor(16) as pool:
        list(pool.map(lambda i: s3.put_object(Bucket=B, Key=f"par/{i}", Body=os.urandom(5000)), range(100)))


def clean():
    boto3.resource("s3", endpoint_url=URL).Bucket(B).object_versions.delete()
    for upload in s3.list_multipart_uploads(Bucket=B).get("Uploads", []):
        s3.abort_multipart_upload(Bucket=B, Key=upload["Key"], UploadId=upload["UploadId"])
    s3.delete_bucket(Bucket=B)


s3.create_bucket(Bucket=B)
for step in (objects, conditions, listings, transfers, presigned, unset, versions, locks, parallel, clean):
    try:
        step()
    except Exception as error:
        sys.exit(f"{step.__name__}: {type(error).__name__}: {error}")
print("all ok")
